"""Long documents, each made by a function of this module that a table names in the field `made`."""

import json
from itertools import accumulate

from models import director, entity, joined


def port(name: str, kind: str, **fields) -> dict:
    return {"name": name, kind: True, **fields}


def top(director: dict, entities: list[dict], groups: list[list[str]], record: list[str], ports=(), inputs=(), parameters=()) -> dict:
    """A document. Lists that would be empty are left out."""
    model = {"name": "top", "class": "Composite", "properties": [director, *parameters], "ports": [*ports], "entities": entities, **joined(*groups)}
    document = {"version": 1, "model": model, "inputs": [*inputs], "record": record}
    for part in (model, document):
        for key in [key for key, value in part.items() if value == []]:
            del part[key]
    return document


def composite(name: str, director: dict | None, entities: list[dict], groups: list[list[str]], ports: list[dict]) -> dict:
    made = {**entity(name, "Composite"), "ports": ports, "entities": entities, **joined(*groups)}
    return {**made, "properties": [director]} if director else made


def chained(names: list[str]) -> list[list[str]]:
    """The output of each of these to the input of the next."""
    return [[f"{one}.output", f"{two}.input"] for one, two in zip(names, names[1:])]


def array(items) -> str:
    return "{" + ",".join(str(item) for item in items) + "}"


# ---- discrete events


def offsets(count: int) -> dict:
    """A clock of so many offsets in one round; at the last of them a sampler gives how many came."""
    clock = entity("c", "DiscreteClock", period=count, offsets=array(range(count)), values=array([1] * count))
    end = entity("end", "SingleEvent", time=count - 1)
    groups = [["c.output", "x.input"], ["x.output", "s.input"], ["end.output", "s.trigger"]]
    return top(director("DE", stopTime=count - 1), [clock, end, entity("x", "Accumulator"), entity("s", "Sampler")], groups, ["s.output"])


def delays_at_once(count: int) -> dict:
    """One event into so many delays, and these into a sum."""
    delays = [entity(f"d{number}", "TimeDelay", delay=5) for number in range(count)]
    groups = [["e.output", *(f"d{number}.input" for number in range(count))], *([f"d{number}.output", "a.plus"] for number in range(count))]
    return top(director("DE"), [entity("e", "SingleEvent", value=3), *delays, entity("a", "AddSubtract")], groups, ["a.output"])


def delays_in_turn(count: int) -> dict:
    """One event through so many delays of nought."""
    names = ["e", *(f"d{number}" for number in range(count))]
    delays = [entity(name, "TimeDelay", delay=0) for name in names[1:]]
    return top(director("DE"), [entity("e", "SingleEvent", value=7), *delays], chained(names), [f"{names[-1]}.output"])


def clocks(count: int, stop: int) -> dict:
    """So many clocks of one period into a sum."""
    made = [entity(f"c{number}", "DiscreteClock", period=1) for number in range(count)]
    return top(director("DE", stopTime=stop), [*made, entity("a", "AddSubtract")], [[f"c{number}.output", "a.plus"] for number in range(count)], ["a.output"])


def events(count: int, swapped: bool = False) -> dict:
    """So many events of the top's input into a sum that a sampler gives at the last; or the last two in the wrong order."""
    times = list(range(count))
    if swapped:
        times[-2:] = times[:-3:-1]
    supply = [{"port": "in", "events": [{"time": time, "step": 0, "value": "1"} for time in times]}]
    groups = [["in", "x.input"], ["x.output", "s.input"], ["end.output", "s.trigger"]]
    actors = [entity("end", "SingleEvent", time=count - 1), entity("x", "Accumulator"), entity("s", "Sampler")]
    return top(director("DE"), actors, groups, ["s.output"], [port("in", "input")], supply)


def ring_of_events(count: int, delayed: bool) -> dict:
    """So many actors in a ring, the first of which is a delay where it is delayed."""
    names = [f"s{number}" for number in range(count)]
    actors = [entity(name, "Scale") for name in names]
    if delayed:
        actors[0] = entity("s0", "TimeDelay", delay=1)
    return top(director("DE"), actors, chained([*names, names[0]]), [f"{names[-1]}.output"])


def burst(count: int, last: dict) -> dict:
    """So many tokens at one tag, which come to an actor `d`; a sampler gives at 9.0 what a sum of its output has come to."""
    inside = composite("S", director("SDF"), [entity("r", "Repeat", numberOfTimes=count)], [["in", "r.input"], ["r.output", "out"]], [port("in", "input"), port("out", "output")])
    actors = [entity("e", "SingleEvent"), entity("end", "SingleEvent", time=9), inside, last, entity("x", "Accumulator"), entity("s", "Sampler")]
    groups = [["e.output", "S.in"], ["S.out", "d.input"], ["d.output", "x.input"], ["x.output", "s.input"], ["end.output", "s.trigger"]]
    return top(director("DE"), actors, groups, ["s.output"])


def burst_to_a_server(count: int) -> dict:
    return burst(count, entity("d", "Server", serviceTime=0))


def burst_to_a_delay(count: int) -> dict:
    return burst(count, entity("d", "TimeDelay", delay=4))


# ---- process networks


def ring(count: int, first: int) -> dict:
    """So many processes in a ring, with first tokens or without."""
    names = [f"s{number}" for number in range(count)]
    actors = [entity(name, "Scale", factor=-1) for name in names]
    if first:
        actors[0] = entity("s0", "SampleDelay", initialOutputs=array([1] * first))
    return top(director("PN"), actors, chained([*names, names[0]]), [f"{names[-1]}.output"])


def jams(count: int) -> dict:
    """So many jams at capacity 1, side by side."""
    actors, groups = [], []
    for number in range(count):
        actors += [entity(f"r{number}", "Ramp"), entity(f"a{number}", "AddSubtract"), entity(f"s{number}", "Scale")]
        groups += [[f"r{number}.output", f"a{number}.plus"], [f"s{number}.output", f"s{number}.input", f"a{number}.plus"]]
    return top(director("PN", maximumQueueCapacity=1), actors, groups, ["r0.output"])


def growth(count: int, limit: int = 0) -> dict:
    """A queue that has to hold as many tokens as a down sample takes."""
    ramp = entity("r", "Ramp", firingCountLimit=limit)
    actors = [ramp, entity("a", "AddSubtract"), entity("d", "DownSample", factor=count)]
    return top(director("PN"), actors, [["r.output", "a.minus", "d.input"], ["d.output", "a.plus"]], ["a.output"])


def channels(count: int, kind: str, firings: int) -> dict:
    """One ramp onto so many channels of one sum, for so many firings of the ramp."""
    limited = kind == "PN"
    ramp = entity("r", "Ramp", firingCountLimit=firings) if limited else entity("r", "Ramp")
    stated = director("PN") if limited else director(kind, iterations=firings)
    return top(stated, [ramp, entity("a", "AddSubtract")], [["r.output", *["a.plus"] * count]], ["a.output"])


def channels_at_events(count: int, stop: int) -> dict:
    """One clock onto so many channels of one sum."""
    actors = [entity("c", "DiscreteClock", period=1, values="{2}"), entity("a", "AddSubtract")]
    return top(director("DE", stopTime=stop), actors, [["c.output", *["a.plus"] * count]], ["a.output"])


def outputs(count: int) -> dict:
    """A process of so many outputs, all of which come to one sum."""
    ports = [port("in", "input"), *(port(f"o{number}", "output") for number in range(count))]
    inside = composite("c", director("SDF"), [entity("k", "Scale", factor=2)], [["in", "k.input"], ["k.output", *(f"o{number}" for number in range(count))]], ports)
    groups = [["r.output", "c.in"], *([f"c.o{number}", "a.plus"] for number in range(count))]
    return top(director("PN"), [entity("r", "Ramp", firingCountLimit=3), inside, entity("a", "AddSubtract")], groups, ["a.output"])


def repeats(count: int) -> dict:
    """A process that gives so many tokens in one firing, through a queue of one."""
    names = ["r", "p", "d"]
    actors = [entity("r", "Ramp", init=5, firingCountLimit=1), entity("p", "Repeat", numberOfTimes=count), entity("d", "DownSample", factor=count)]
    return top(director("PN", maximumQueueCapacity=1), actors, chained(names), ["d.output"])


# ---- rendezvous


def meeting(entities: list[dict], groups: list[list[str]], record: list[str]) -> dict:
    return top(director("Rendezvous"), entities, groups, record)


def handshakes(count: int) -> dict:
    """One pair that meets so many times."""
    return meeting([entity("r", "Ramp", firingCountLimit=count), entity("d", "Discard")], [["r.output", "d.input"]], [])


def meeting_pairs(count: int, times: int) -> dict:
    """So many pairs, each of which meets so many times; what one sender gives begins behind what the one before gives."""
    actors = []
    for number in range(count):
        actors += [entity(f"r{number}", "Ramp", init=number * times, firingCountLimit=times), entity(f"k{number}", "Scale", factor=2)]
    return meeting(actors, [[f"r{number}.output", f"k{number}.input"] for number in range(count)], [f"k{count - 1}.output"])


def visitors(count: int) -> dict:
    """So many senders into one Merge, each with a token of its own, and a sum behind it."""
    names = [f"r{number}" for number in range(count)]
    actors = [*(entity(name, "Ramp", init=number, firingCountLimit=1) for number, name in enumerate(names)), entity("m", "Merge"), entity("x", "Accumulator")]
    return meeting(actors, [*([f"{name}.output", "m.input"] for name in names), ["m.output", "x.input"]], ["m.output", "x.output"])


def visited(order: list[int], end: str) -> list[str]:
    """The report of these visitors where they met the Merge in this order, the sum each time before the next of them."""
    tokens = [f"{number} 0.0 {value}" for number, value in enumerate(order)]
    sums = [f"{number} 0.0 {value}" for number, value in enumerate(accumulate(order))]
    words = [word for sender in order for word in (f"meet m.input.{sender}", "meet x.input.0")]
    met = [f"0 {index} {word}" for index, word in enumerate(words)]
    return ["trace m.output", *tokens, "trace x.output", *sums, "meetings .", *met, end]


def gathering(count: int, late: int) -> dict:
    """So many senders to one Barrier, the last of which never come; behind it how many came, and the last of them."""
    names = [f"r{number}" for number in range(count)]
    actors = [entity(name, "Ramp", init=number, firingCountLimit=1) for number, name in enumerate(names[: count - late])]
    actors += [entity(name, "Scale") for name in names[count - late :]]
    length = {**entity("n", "Expression", expression="x.length()"), "ports": [port("x", "input")]}
    actors += [entity("b", "Barrier"), length, entity("e", "ArrayElement", index=count - 1)]
    groups = [*([f"{name}.output", "b.input", *([f"{name}.input"] if number >= count - late else [])] for number, name in enumerate(names))]
    return meeting(actors, [*groups, ["b.output", "n.x", "e.input"]], ["n.output", "e.output"])


def long_texts(length: int) -> dict:
    """Two texts of so many letters, which meet at a Barrier."""
    count = {**entity("n", "Expression", expression="x.length()"), "ports": [port("x", "input")]}
    actors = [*(entity(name, "Const", value=f'"{"a" * length}"', firingCountLimit=1) for name in "pq"), entity("b", "Barrier"), count]
    return meeting(actors, [["p.output", "b.input"], ["q.output", "b.input"], ["b.output", "n.x"]], ["n.output"])


def ring_that_waits(count: int) -> dict:
    """So many processes in a ring, each of which waits for the one before it."""
    names = [f"s{number}" for number in range(count)]
    return meeting([entity(name, "Scale") for name in names], chained([*names, names[0]]), [f"{names[-1]}.output"])


def row_of_barriers(count: int) -> dict:
    """So many Barriers of one channel, each of which takes what the one before it gave."""
    names = ["r", *(f"b{number}" for number in range(count))]
    return meeting([entity("r", "Ramp", firingCountLimit=1), *(entity(name, "Barrier") for name in names[1:])], chained(names), [f"{names[-1]}.output"])


def places_in_turn(count: int) -> dict:
    """A sender of one token to so many places of a sum."""
    return meeting([entity("r", "Ramp", init=3, firingCountLimit=1), entity("a", "AddSubtract")], [["r.output", *["a.plus"] * count]], ["a.output"])


def fired(times: int) -> dict:
    """A Rendezvous composite that fires so many times. At each other one it has gathered four tokens, and gives the sum of the last of each four."""
    actors = [entity("k", "Repeat"), entity("d", "DownSample", factor=4), entity("x", "Accumulator")]
    groups = [["in", "k.input"], *chained(["k", "d", "x"]), ["x.output", "out"]]
    inside = composite("N", director("Rendezvous"), actors, groups, [port("in", "input"), port("out", "output")])
    return top(director("SR", iterations=times), [entity("r", "Ramp"), inside], [["r.output", "N.in"]], ["N.out"])


# ---- Modal entities


def state(name: str, refinement: str | None = None) -> dict:
    return {"name": name, "refinement": refinement} if refinement else {"name": name}


def transition(start: str, end: str, guard: str, history: bool = True, output: dict | None = None, sets: dict | None = None) -> dict:
    made = {"from": start, "to": end, "guard": guard, "history": history}
    if output:
        made["output"] = [{"port": name, "value": value} for name, value in output.items()]
    if sets:
        made["set"] = [{"name": name, "value": value} for name, value in sets.items()]
    return made


def variable(name: str, value) -> dict:
    return {"name": name, "class": "Variable", "value": str(value)}


def machine(ports: list[dict], states: list[dict], transitions: list[dict], refinements=(), variables=(), name: str = "M") -> dict:
    """A Modal entity that begins in the first of its states."""
    parts = {"properties": [*variables], "ports": ports, "entities": [*refinements], "states": states, "initial": states[0]["name"], "transitions": transitions}
    return {"name": name, "class": "Modal", **{key: value for key, value in parts.items() if value}}


def at_ticks(count: int, entities: list[dict], groups=()) -> dict:
    return top(director("SR", iterations=count), entities, [*groups], ["M.y"])


Y = [port("y", "output")]
XY = [port("x", "input"), *Y]
COUNTED = {"n": "n + 1"}


def states_in_a_ring(count: int, ticks: int) -> dict:
    """So many states, each of which leads to the next; the last gives how many transitions came before."""
    names = [f"s{number}" for number in range(count)]
    moves = [transition(one, two, "true", sets=COUNTED) for one, two in zip(names, [*names[1:], names[0]])]
    moves[-1]["output"] = [{"port": "y", "value": "n"}]
    return at_ticks(ticks, [machine(Y, [state(name) for name in names], moves, variables=[variable("n", 0)])])


def transitions_of_one_state(count: int, ticks: int) -> dict:
    """So many transitions from one state, of which number x is taken and gives how many are behind it; from the other state one leads back."""
    moves = [transition("a", "b", f"x == {number}", output={"y": str(count - 1 - number)}) for number in range(count)]
    made = machine(XY, [state("a"), state("b")], [*moves, transition("b", "a", "true")])
    return at_ticks(ticks, [entity("r", "Ramp"), made], [["r.output", "M.x"]])


def guards_that_disagree(count: int, last: str) -> dict:
    """So many transitions from one state, of which two are enabled, and a last one with this guard."""
    guards = ["true", *["false"] * (count - 3), "true", last]
    return at_ticks(1, [machine(Y, [state("a")], [transition("a", "a", guard, output={"y": "1"}) for guard in guards])])


def guards_of_another_state(count: int, ticks: int) -> dict:
    """A state with so many transitions, which is entered after so many ticks in another one."""
    moves = [transition("a", "a", f"n == {number}", output={"y": "-n"}) for number in range(count)]
    moves += [transition("b", "b", f"n < {ticks - 1}", sets=COUNTED), transition("b", "a", f"n == {ticks - 1}", output={"y": "n"}, sets={"n": str(count - 1)})]
    return at_ticks(ticks + 1, [machine(Y, [state("b"), state("a")], moves, variables=[variable("n", 0)])])


def resets(count: int, ticks: int, history: bool) -> dict:
    """A refinement of so many actors behind a ramp, which is entered anew at each tick."""
    names = ["k", *(f"s{number}" for number in range(1, count))]
    actors = [entity("k", "Ramp", init=7), *(entity(name, "Scale") for name in names[1:])]
    inside = composite("R", director("SDF"), actors, [*chained(names), [f"{names[-1]}.output", "y"]], Y)
    return at_ticks(ticks, [machine(Y, [state("a", "R")], [transition("a", "a", "true", history)], [inside])])


def states_at_one_time(count: int) -> dict:
    """So many states, each entered a microstep after the one before, since its refinement has no inputs; the last gives its number."""
    last = count - 1
    refinements = [composite(f"R{number}", director("SDF"), [entity("c", "Const", value=number)], [["c.output", "y"]] if number == last else [], Y if number == last else []) for number in range(count)]
    states = [state(f"s{number}", f"R{number}") for number in range(count)]
    moves = [transition(f"s{number}", f"s{number + 1}", "true", False) for number in range(last)]
    return top(director("DE"), [machine(Y, states, moves, refinements)], [], ["M.y", f"M.R{last}.y"])


def reactions(count: int, refined: bool) -> dict:
    """So many reactions of a machine of two states to a clock, by turns; a sampler gives at the last what it gave."""
    inside = composite("R", director("SDF"), [entity("k", "Ramp")], [["x", "k.trigger"], ["k.output", "y"]], XY)
    moves = [transition("a", "b", "x == 1", output={} if refined else {"y": "n"}, sets=COUNTED), transition("b", "a", "x == 1", output={"y": "-n"}, sets=COUNTED)]
    made = machine(XY, [state("a", "R" if refined else None), state("b")], moves, [inside] if refined else [], [variable("n", 0)])
    actors = [entity("c", "DiscreteClock", period=1), entity("end", "SingleEvent", time=count - 1), made, entity("s", "Sampler")]
    return top(director("DE", stopTime=count - 1), actors, [["c.output", "M.x"], ["M.y", "s.input"], ["end.output", "s.trigger"]], ["s.output"])


def machines_nested(levels: int) -> dict:
    """Machines in one another, so many levels of entities in all, of which the innermost doubles what comes."""
    inner = machine(XY, [state("a")], [transition("a", "a", "true", output={"y": "2 * x"})])
    for _ in range(levels - 2):
        inner = machine(XY, [state("a", "M")], [], [inner])
    return top(director("DE"), [entity("s", "SingleEvent", time=3), inner], [["s.output", "M.x"]], ["M.y"])


def variables_in_a_row(count: int) -> dict:
    """So many Variables; at each tick the first gets x, and each other one what the one before has got."""
    sets = {"v0": "x", **{f"v{number}": f"v{number - 1}" for number in range(1, count)}}
    made = machine(XY, [state("a")], [transition("a", "a", "true", output={"y": f"v{count - 1}"}, sets=sets)], variables=[variable(f"v{number}", -1) for number in range(count)])
    return at_ticks(3, [entity("r", "Ramp"), made], [["r.output", "M.x"]])


def names_of_a_machine(count: int, where: str) -> dict:
    """A name of so many letters where a machine names something."""
    name = "a" * count
    made = machine(Y, [state("a")], [transition("a", "a", "true")])
    if where == "state":
        made["states"].append(state(name))
    elif where == "refinement":
        made["states"] = [state("a", name)]
    elif where == "guard":
        made["transitions"][0]["guard"] = f"true || {name}"
    elif where in ("from", "to"):
        made["transitions"][0][where] = name
    elif where == "initial":
        made["initial"] = name
    elif where == "port":
        made["transitions"][0]["output"] = [{"port": name, "value": "1"}]
    return at_ticks(1, [made])


# ---- what holds for all


def nested(levels: int, kind: str) -> dict:
    """Composites in one another around a scale, so many levels of entities in all."""
    inner, start, end = entity("k", "Scale", factor=2), "k.input", "k.output"
    for _ in range(levels - 2):
        inner = composite("c", director(kind), [inner], [["in", start], [end, "out"]], [port("in", "input"), port("out", "output")])
        start, end = "c.in", "c.out"
    source = entity("s", "SingleEvent", time=3) if kind == "DE" else entity("s", "Const", value=1, firingCountLimit=1)
    return top(director(kind), [source, inner], [["s.output", start]], [end])


def digits(count: int, where: str) -> dict | str:
    """A number of so many digits, as a value, as a capacity, or as the time of an event."""
    number = "9" * count
    if where == "time":
        supply = [{"port": "in", "events": [{"time": "TIME", "step": 0, "value": "1"}]}]
        document = top(director("DE"), [entity("x", "Accumulator")], [["in", "x.input"]], ["x.output"], [port("in", "input")], supply)
        # Python itself writes no number so long.
        return json.dumps(document).replace('"TIME"', number)
    if where == "capacity":
        return top(director("PN", maximumQueueCapacity=number), [entity("c", "Ramp")], [], ["c.output"])
    return top(director("DE"), [entity("c", "SingleEvent", time=number)], [], ["c.output"])


def zeros(count: int) -> dict:
    """The time 7 behind so many noughts."""
    return top(director("DE"), [entity("c", "SingleEvent", time="0" * count + "7")], [], ["c.output"])


def named(count: int, where: str) -> dict:
    """A name of so many letters."""
    name = "a" * count
    if where == "entity":
        return top(director("DE"), [composite("S", director("DE"), [entity(name, "Const", value=1)], [], [])], [], [])
    if where == "relation":
        document = top(director("PN"), [entity("c", "Ramp")], [], ["c.output"])
        document["model"]["relations"] = [{"name": name}]
        return document
    if where == "link":
        return top(director("PN"), [entity("c", "Ramp")], [[name]], ["c.output"])
    if where == "record":
        return top(director("DE"), [entity("c", "Const", value=1)], [], [name])
    if where == "input":
        return top(director("DE"), [entity("c", "Const", value=1)], [], [], inputs=[{"port": name, "events": []}])
    return top(director("PN", **{name: 1}), [entity("c", "Ramp")], [], ["c.output"])
