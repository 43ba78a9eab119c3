"""Loops and rates of a composite: what can't begin or has no delay (codes 21, 22 and 23)."""

from __future__ import annotations

from .expression import Fault, Token, evaluate, parse
from .finding import Finding
from .model import Entity
from .scopes import values_around
from .wiring import End, Wiring

_RATES = {
    "DownSample": ("factor", None), "UpSample": (None, "factor"), "SequenceToArray": ("arrayLength", None),
    "ArrayToSequence": (None, "arrayLength"),
}


def tell_rates(composite: Entity, finding: Finding) -> None:
    """Lists the children whose firings take or give another number of tokens than one."""
    finding.points_to((composite.director or composite).at("class"))
    told = [text for child in composite.walk() if child.above is composite and (text := rate_text(child))]
    if told:
        finding.says("Actors here that take or give several tokens in a firing; all others take one of each input and give one:")
        finding.says(*(f"  {text}" for text in told[:20]))
    finding.says("Around each loop, and on any two ways from one actor to another, as many tokens have to be taken as are given.")


def rate_text(child: Entity) -> str:
    if child.is_composite and child.director:
        return f"{child.path}: a composite under {child.director_name}"
    if child.kind == "Repeat":
        times, block = _number(child, "numberOfTimes", 2), _number(child, "blockSize", 1)
        given = block * times if isinstance(block, int) and isinstance(times, int) else f"{times} times that many"
        return f"{child.path}: takes {block}, gives {given}"
    if child.kind in _RATES:
        taken, given = _RATES[child.kind]
        default = 2 if "factor" in (taken, given) else 1
        number = _number(child, taken or given, default)
        return f"{child.path}: takes {number if taken else 1}, gives {number if given else 1}"
    return ""


def _number(child: Entity, name: str, default: int) -> Token:
    parameter = next((parameter for parameter in child.parameters if parameter.name == name), None)
    if parameter is None:
        return default
    try:
        return evaluate(parse(parameter.text("value")), values_around(parameter, child))
    except Fault:
        return parameter.text("value")


def tell_deadlock(wiring: Wiring, composite: Entity, finding: Finding) -> None:
    """Finds a loop in which nobody can fire first."""
    loop = find_loop(wiring, composite, lambda source, place: source.entity.kind == "SampleDelay")
    told = "SampleDelays give its first tokens, and they are too few for the firings of the loop."
    if loop is None:
        loop = find_loop(wiring, composite, lambda source, place: False)
    else:
        told = "No SampleDelay is in it: each waits for a token of the one before. Put a SampleDelay into the loop."
    _tell_loop(composite, loop, told, finding)


def tell_delays(wiring: Wiring, composite: Entity, finding: Finding) -> None:
    """Finds a loop without a delay."""
    def is_delay(source: End, place: End) -> bool:
        return place.entity.kind in ("TimeDelay", "Server") or (place.entity.kind == "Register" and place.port == "input")

    loop = find_loop(wiring, composite, is_delay)
    _tell_loop(composite, loop, "No delay is in it: put a TimeDelay, of delay 0 if need be, a Server or a Register into the loop.", finding)


def _tell_loop(composite: Entity, loop: list[End] | None, told: str, finding: Finding) -> None:
    finding.points_to((composite.director or composite).at("class"))
    if loop:
        finding.marks = [end.entity.path for end in loop]
        finding.points_to(loop[0].link)
        dots = ["..."] if len(loop) > 12 else []
        way = " -> ".join([*(end.path for end in loop[:12]), *dots, loop[0].path])
        finding.says(f"The loop: {way}.", told)
        finding.others += [(end.link, f"then {end.path}") for end in loop[1:12]]


def find_loop(wiring: Wiring, composite: Entity, is_open) -> list[End] | None:
    """The sources of a directed loop of children that has no open channel, or None. By a search without recursion."""
    flow = wiring.flow(composite)
    done: set[str] = set()
    for first in flow:
        way: list[tuple[str, End | None]] = [(first, None)]
        on_way = {first}
        waiting = [iter(flow.get(first, ()))] if first not in done else []
        while waiting:
            step = next(waiting[-1], None)
            if step is None:
                waiting.pop()
                path, _ = way.pop()
                on_way.discard(path)
                done.add(path)
                continue
            target, source, place = step
            if is_open(source, place) or target in done:
                continue
            if target in on_way:
                number = next(number for number, (path, _) in enumerate(way) if path == target)
                return [end for _, end in way[number + 1:] if end] + [source]
            way.append((target, source))
            on_way.add(target)
            waiting.append(iter(flow.get(target, ())))
    return None
