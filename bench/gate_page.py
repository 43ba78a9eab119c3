"""What bench/gate measured, as a page."""

import re

TASKS = ("proof", "tests", "edits")
OTHER = "other"


def chains(uses: dict[str, list[str]], minutes: dict[str, float]) -> dict[str, list[str]]:
    """For each crate the longest chain of crates that ends with it, each used by the next, by the sum of their minutes."""
    found: dict[str, list[str]] = {}

    def length(chain: list[str]) -> float:
        return sum(minutes[it] for it in chain)

    def chain_to(name: str) -> list[str]:
        if name not in found:
            found[name] = max((chain_to(it) for it in uses[name]), key=length, default=[]) + [name]
        return found[name]

    for name in uses:
        chain_to(name)
    return found


def clock(seconds: float) -> str:
    return f"{int(seconds) // 60}:{int(seconds) % 60:02}"


def minutes(kept: dict, crate: str, task: str) -> float:
    return kept["crates"].get(crate, {}).get(task, {}).get("seconds", 0.0) / 60


def took(kept: dict, crate: str) -> float:
    """The minutes of the clock from where the proof of a crate began to its end."""
    fact = kept["crates"].get(crate, {}).get("proof")
    return (fact["ended"] - fact["began"]) / 60 if fact else 0.0


def shown(number: float) -> str:
    return f"{number:.1f}" if number >= 0.05 else ""


def table(kept: dict) -> list[str]:
    """The lines of the table: a row for each crate, in the order of crates.txt, and their sums."""
    uses = kept["uses"]
    proofs = {name: minutes(kept, name, "proof") for name in uses}
    ends = chains(uses, proofs)
    lines = ["| crate | proof | tests | edits | all | chain | proof by the clock | GB |", "|---|--:|--:|--:|--:|--:|--:|--:|"]
    for name in uses:
        parts = [minutes(kept, name, task) for task in TASKS]
        chain = sum(proofs[it] for it in ends[name])
        largest = max((fact["bytes"] for fact in kept["crates"].get(name, {}).values()), default=0) / 1e9
        cells = [*(shown(it) for it in parts), shown(sum(parts)), shown(chain), shown(took(kept, name)), shown(largest)]
        lines.append(f"| {name} | {' | '.join(cells)} |")
    sums = [sum(minutes(kept, name, task) for name in uses) for task in TASKS]
    lines.append(f"| all | {' | '.join(shown(it) for it in [*sums, sum(sums)])} | | | |")
    return lines


def longest(kept: dict, of: dict[str, float]) -> str:
    """The longest chain by these minutes, in words."""
    chain = max(chains(kept["uses"], of).values(), key=lambda it: sum(of[name] for name in it))
    return f"{sum(of[name] for name in chain):.1f} minutes: {', '.join(chain)}"


def ending(kept: dict) -> str:
    """How the gate ended, in words."""
    if re.fullmatch(r"\d+ passed, \d+ failed", kept["said"]):
        return f"the gate said `{kept['said']}`."
    return "then the gate was ended. What follows was measured until then: crates that weren't reached have no figures, and those under way too small ones."


def page(kept: dict) -> str:
    """What was measured, as a page."""
    uses = kept["uses"]
    sums = {task: sum(minutes(kept, name, task) for name in uses) for task in TASKS}
    others, own = minutes(kept, OTHER, OTHER), kept["rt"] / 60
    busy = "" if kept["load"] < 0.5 else f" The machine had other work: its load was {kept['load']:.1f} at the start."
    parts = ", ".join(f"{task} {sums[task]:.1f}" for task in TASKS)
    return "\n".join(
        [
            "# What the gate takes",
            "",
            f"`rt ci` from nothing, on commit {kept['commit']} of {kept['date']}, with {kept['kit']}, on {kept['processors']} processors and {kept['gibibytes']} GiB. Measured by `bench/gate`.{busy}",
            "",
            f"- {kept['elapsed'] / 60:.1f} minutes by the clock; {ending(kept)}",
            f"- {sum(sums.values()) + others + own:.1f} minutes of processors: {parts}, `rt` itself {own:.1f}, all else {others:.1f}.",
            f"- The longest chain of proofs, each crate used by the next: {longest(kept, {name: minutes(kept, name, 'proof') for name in uses})}.",
            f"- The longest by the clock, each proof with the processors that it was given: {longest(kept, {name: took(kept, name) for name in uses})}.",
            "",
            "Minutes of processors, but for the last two columns. The proof of a crate holds its checks of format and what its program's builds take, the tests their proof, build and run, and the edits all checks of wrong bodies. `chain` is the longest chain of proofs that ends with the crate's own. GB is the most memory of one process.",
            "",
            *table(kept),
            "",
        ]
    )
