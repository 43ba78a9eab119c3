#!/usr/bin/env python3
"""Print typed_nets.txt, which the program reads, from nets.txt, which people read: a row for each net, with its document and what is
wanted, below a remark with its name.

An entity is `NAME: CLASS(ports) parameter=value | parameter=value`, a composite `NAME: Composite DIRECTOR(ports)` with what is
in it indented below, without a director a transparent one. A link is `PORT -> PORT PORT`. A port is `NAME`, `in NAME` or
`out NAME`, and `:TYPE` behind it declares its type. `top(ports) parameter=value` stands first, and `input PORT = TOKEN, TOKEN`
gives the tokens of an input of the top.
"""

import json
import re
import sys
from pathlib import Path

ENTITY = re.compile(r"(\w+): (\w+)(?: (SDF))?(?:\((.*?)\))?(?: (.*))?$")


def parts(text: str) -> list[str]:
    """The parts between commas that no bracket holds."""
    found, depth = [""], 0
    for letter in text:
        depth += (letter in "({") - (letter in ")}")
        if letter == "," and depth == 0:
            found.append("")
        else:
            found[-1] += letter
    return [part.strip() for part in found if part.strip()]


def port(text: str, way: str) -> dict:
    name, _, declared = text.partition(":")
    words = name.split()
    way = {"in": "input", "out": "output"}[words[0]] if len(words) == 2 else way
    made = {"name": words[-1], way: True}
    return {**made, "type": declared} if declared else made


def ports(text: str | None, way: str = "input") -> list[dict]:
    return [port(part, way) for part in parts(text or "")]


def properties(text: str | None) -> list[dict]:
    pairs = (part.split("=", 1) for part in (text or "").split(" | ") if part)
    return [{"name": name, "value": value} for name, value in pairs]


def director(**values: str) -> dict:
    return {"name": "director", "class": "SDF", "properties": [{"name": name, "value": value} for name, value in values.items()]}


class Composite:
    """A composite while its lines are read."""

    def __init__(self, made: dict):
        self.made = {**made, "entities": [], "relations": [], "links": []}

    def link(self, source: str, places: list[str]) -> None:
        name = f"r{len(self.made['relations'])}"
        self.made["relations"].append({"name": name})
        self.made["links"] += [{"port": end, "relation": name} for end in (source, *places)]


def entity(line: str) -> dict:
    name, kind, directed, declared, values = ENTITY.match(line).groups()
    made = {"name": name, "class": kind}
    found = properties(values) + ([director()] if directed else [])
    declared = ports(declared, "output" if kind == "RecordDisassembler" else "input")
    return {**made, **({"properties": found} if found else {}), **({"ports": declared} if declared else {})}


def document(lines: list[str]) -> dict:
    top = Composite({"name": "top", "class": "Composite", "properties": [director(iterations="1")]})
    inputs, inner = [], None
    for line in lines:
        if head := re.match(r"top(?:\((.*)\))?(?: (.*))?$", line):
            top.made["ports"] = ports(head[1])
            top.made["properties"] = properties(head[2]) + top.made["properties"]
        elif line.startswith("input "):
            name, tokens = line[6:].split(" = ", 1)
            inputs.append({"port": name, "tokens": parts(tokens)})
        else:
            inner = inner if line.startswith("  ") else None
            around = inner or top
            if " -> " in line:
                source, places = line.strip().split(" -> ")
                around.link(source, places.split())
            else:
                made = entity(line.strip())
                if made["class"] == "Composite":
                    inner = Composite(made)
                    made = inner.made
                around.made["entities"].append(made)
    return {"version": 1, "model": top.made, **({"inputs": inputs} if inputs else {})}


HEADS = {
    "=": "[types] the type of each port that has a channel or is an output",
    "!": "[broken] whether the typing breaks at one of these entities",
}


def row(lines: list[str]) -> tuple[str, str]:
    """The row of a net, behind the mark of the section that it is for."""
    wanted = [line for line in lines if line[0] in HEADS]
    made = json.dumps(document([line for line in lines if line[0] not in HEADS]), separators=(",", ":"))
    words = [line[2:] for line in wanted]
    return wanted[0][0], f"{'; '.join(words)} <- {made}" if wanted[0][0] == "=" else f"yes <- {' '.join(words)}: {made}"


def main() -> None:
    text = (Path(__file__).resolve().parent / "nets.txt").read_text()
    rows = {mark: [] for mark in HEADS}
    for block in text.strip().split("\n\n")[1:]:
        title, *lines = block.split("\n")
        mark, made = row(lines)
        rows[mark] += [title, made]
    print("# Nets with what is wanted of their typing, printed by make.py from nets.txt.")
    for mark, head in HEADS.items():
        print("", head, *rows[mark], sep="\n")


if __name__ == "__main__":
    sys.exit(main())
