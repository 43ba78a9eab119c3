"""Checks what documents refer to: other documents and their headings, files, and names of the sources."""

import re
import subprocess
from pathlib import PurePosixPath

from .sources import Texts

# A file's or folder's path in the repository, or below the crate of a README.
PATH = re.compile(r"[\w.-]+(?:/[\w.-]+)+/?|[\w-]+\.(?:rt|antt|md|py|json|txt|edit)")
# A name of the sources that can't be a word of a sentence: with an underscore, a capital within, or a module before it.
NAME = re.compile(r"(?:[A-Za-z_]\w*(?:::|\.))*[A-Za-z_]\w*(?:\(\))?")
# What a run makes and a document may link to before.
MADE_BY_A_RUN = {"bench/GATE.md"}
# Files that the toolchain writes.
WRITTEN_BY_THE_KIT = {"AnswersOffered.antt"}
# Files that documents name and that stand for others: NAME is any name.
STAND_IN = re.compile(r"\bNAME\b|^model\.json$")


def tracked(texts: Texts) -> list[str]:
    """The files of the repository."""
    command = ["git", "-C", str(texts.root), "ls-files", "--cached", "--others", "--exclude-standard"]
    found = subprocess.run(command, capture_output=True, text=True, check=True).stdout.split("\n")[:-1]
    return [path for path in found if (texts.root / path).is_file()]


def is_ignored(texts: Texts, path: str) -> bool:
    """Whether git leaves this path out, as what is built."""
    command = ["git", "-C", str(texts.root), "check-ignore", path, f"{path}/"]
    return subprocess.run(command, capture_output=True).returncode == 0


def folders(paths: list[str]) -> set[str]:
    return {str(parent) for path in paths for parent in PurePosixPath(path).parents}


def anchor(heading: str) -> str:
    """The anchor that a heading gets."""
    text = re.sub(r"\[([^\]]*)\]\([^)]*\)", r"\1", heading.strip().lower())
    return re.sub(r"[^\w\- ]", "", text).replace(" ", "-")


def anchors(text: str) -> set[str]:
    return {anchor(line.lstrip("#")) for line in prose(text).splitlines() if re.match(r"#+ ", line)}


def prose(text: str) -> str:
    """A document without its blocks of code."""
    return re.sub(r"^```.*?^```$", "", text, flags=re.MULTILINE | re.DOTALL)


def normal(path: PurePosixPath) -> str:
    """A path without '..'."""
    parts: list[str] = []
    for part in path.parts:
        if part == "..":
            if not parts:
                return ".."
            parts.pop()
        elif part != ".":
            parts.append(part)
    return "/".join(parts)


class Repository:
    """What documents may refer to."""

    def __init__(self, texts: Texts):
        self.texts = texts
        self.paths = tracked(texts)
        self.known = {*self.paths, *folders(self.paths)}
        self.documents = [path for path in self.paths if path.endswith(".md")]
        self.words = set()
        for path in self.paths:
            if path.startswith(("crates/", "tests/calls/src/")) and path.endswith((".rt", ".antt", ".rs")):
                self.words |= set(re.findall(r"[^\W\d][\w-]*", texts.read(path)))
        self.words |= {word for name in self.words for word in name.split("-")}
        self.words |= {PurePosixPath(path).stem for path in self.known}
        self.definitions: dict[str, set[str]] = {}
        for path in self.paths:
            if re.match(r"crates/\w+/specs/\w+\.antt$", path):
                self.definitions.setdefault(PurePosixPath(path).stem, set()).update(re.findall(r"[^\W\d]\w*", texts.read(path)))

    def link_faults(self, path: str) -> list[str]:
        """The links of a document that lead nowhere."""
        wrong = []
        for target in re.findall(r"\]\(([^)\s]+)\)", prose(self.texts.read(path))):
            if re.match(r"[a-z]+:", target):
                continue
            file, _, part = target.partition("#")
            found = normal(PurePosixPath(path).parent / file) if file else path
            if found not in self.known and found not in MADE_BY_A_RUN:
                wrong.append(f"{path}: the link '{target}' leads to no file")
            elif part and found in self.known and part not in anchors(self.texts.read(found)):
                wrong.append(f"{path}: the link '{target}' leads to no heading")
        return wrong

    def is_path(self, document: str, path: str) -> bool:
        """Whether there is such a file or folder, from the top, beside the document or in one of the crates."""
        path = path.rstrip("/")
        places = [path, normal(PurePosixPath(document).parent / path)]
        if any(place in self.known for place in places):
            return True
        if any(known.endswith(f"/{path}") for known in self.known):
            return True
        return is_ignored(self.texts, path)

    def path_faults(self, path: str) -> list[str]:
        """The files that a document names and that aren't there."""
        quoted = set(re.findall(r"`([^`\n]+)`", prose(self.texts.read(path)))) - WRITTEN_BY_THE_KIT
        named = {text for text in quoted if PATH.fullmatch(text) and not STAND_IN.search(text)}
        return [f"{path}: there is no file '{name}'" for name in sorted(named) if not self.is_path(path, name)]

    def is_name(self, name: str) -> bool:
        return all(part in self.words for part in re.split(r"::|\.", name.removesuffix("()")))

    def name_faults(self, path: str) -> list[str]:
        """The names that a document of the sources has and the sources haven't."""
        quoted = set(re.findall(r"`([^`\n]+)`", prose(self.texts.read(path)))) - WRITTEN_BY_THE_KIT
        named = {text for text in quoted if NAME.fullmatch(text) and re.search(r"_|::|[a-z][A-Z]|[A-Z]\w*\.", text)}
        return [f"{path}: the sources have no '{name}'" for name in sorted(named) if not self.is_name(name)]

    def definition_faults(self, path: str) -> list[str]:
        """The definitions that a document names by their file, and that no such file has."""
        named = re.findall(r"`([A-Z]\w*)\.([A-Za-z_]\w*)`", prose(self.texts.read(path)))
        missing = [f"{file}.{name}" for file, name in named if name not in self.definitions.get(file, set()) and name not in ("rt", "antt", "md")]
        return [f"{path}: there is no definition '{name}'" for name in sorted(set(missing))]

    def crates(self) -> set[str]:
        return {PurePosixPath(path).parts[1] for path in self.paths if path.startswith("crates/")}

    def crate_faults(self, path: str) -> list[str]:
        """The crates that the architecture's table, crates.txt or the sentence on edits leaves out or makes up."""
        text = self.texts.read(path)
        tabled = set(re.findall(r"\b(pt\w+)\b", " ".join(re.findall(r"^\|[^|]*\|([^|]*)\|", text, re.MULTILINE))))
        listed = set(re.findall(r"^(pt\w+)(?: staticlib)?:", self.texts.read("crates.txt"), re.MULTILINE))
        said = re.search(r"These crates have no edits[^\n]*", text)
        without = set(re.findall(r"\bpt\w+", said[0])) if said else set()
        edited = {PurePosixPath(edit).parts[1] for edit in self.paths if edit.endswith(".edit")}
        wrong = [f"{path}: the table has no crate '{name}'" for name in sorted(self.crates() - tabled)]
        wrong += [f"{path}: there is no crate '{name}'" for name in sorted(tabled - self.crates())]
        wrong += [f"crates.txt: '{name}' isn't there" for name in sorted(self.crates() ^ listed)]
        return wrong + [f"{path}: whether '{name}' has edits is said wrong" for name in sorted(without ^ (self.crates() - edited))]

    def faults_in(self, path: str) -> list[str]:
        """What is wrong in a document."""
        wrong = self.link_faults(path) + self.path_faults(path)
        if path.startswith("crates/") or path in ("docs/SEMANTICS.md", "docs/ARCHITECTURE.md"):
            wrong += self.name_faults(path)
        wrong += self.crate_faults(path) if path == "docs/ARCHITECTURE.md" else []
        return wrong + (self.definition_faults(path) if path == "docs/SEMANTICS.md" else [])

    def faults(self, texts: Texts) -> list[str]:
        """What is wrong in all documents, which may be others than when the sources were read."""
        self.texts = texts
        return [fault for path in self.documents for fault in self.faults_in(path)]
