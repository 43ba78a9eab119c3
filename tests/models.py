"""Documents that the make.py of several cases build."""

# A ramp through a scale of factor 2, three iterations, in as few bytes as it takes.
SMALL = (
    '{"version":1,"model":{"name":"top","class":"Composite","properties":[{"name":"director","class":"SDF",'
    '"properties":[{"name":"iterations","value":"3"}]}],"entities":[{"name":"Ramp","class":"Ramp"},'
    '{"name":"Scale","class":"Scale","properties":[{"name":"factor","value":"2"}]}],"relations":[{"name":"r"}],'
    '"links":[{"port":"Ramp.output","relation":"r"},{"port":"Scale.input","relation":"r"}]},"record":["Scale.output"]}'
)


def entity(name: str, kind: str, **parameters) -> dict:
    """An entity, and its parameters by name."""
    made = {"name": name, "class": kind}
    if parameters:
        made["properties"] = [{"name": key, "value": str(value)} for key, value in parameters.items()]
    return made


def director(kind: str, **parameters) -> dict:
    """The property that is a composite's director."""
    return {**entity("director", kind, **parameters)}


def joined(*groups: list[str]) -> dict:
    """The relations and links of a composite: one relation for each group of ports."""
    return {
        "relations": [{"name": f"r{number}"} for number in range(len(groups))],
        "links": [{"port": port, "relation": f"r{number}"} for number, group in enumerate(groups) for port in group],
    }


def job(director: dict, entities: list[dict], groups: list[list[str]], record: list[str]) -> dict:
    """A document: a top composite without ports."""
    top = {"name": "top", "class": "Composite", "properties": [director], "entities": entities, **joined(*groups)}
    return {"version": 1, "model": top, "record": record}


def pairs(count: int, iterations: int) -> dict:
    """Ramps from 0, 1, 2 and so on, each through a scale of its own, of factors -1, -2, -3 and so on. The last is recorded."""
    entities = []
    for number in range(count):
        entities += [entity(f"r{number}", "Ramp", init=number), entity(f"s{number}", "Scale", factor=-1 - number)]
    groups = [[f"r{number}.output", f"s{number}.input"] for number in range(count)]
    return job(director("SDF", iterations=iterations), entities, groups, [f"s{count - 1}.output"])


def stage(number: int) -> dict:
    """Stage of the generated document: a scale, or at each tenth place a dataflow composite around one."""
    factor = -1 if number % 3 == 0 else 1
    if number % 10:
        return entity(f"s{number}", "Scale", factor=factor)
    return {
        **entity(f"s{number}", "Composite"),
        "properties": [director("SDF")],
        "ports": [{"name": "input", "input": True}, {"name": "output", "output": True}],
        "entities": [entity("k", "Scale", factor=factor)],
        "relations": [{"name": "a"}, {"name": "b"}],
        "links": [
            {"port": "input", "relation": "a"}, {"port": "k.input", "relation": "a"},
            {"port": "k.output", "relation": "b"}, {"port": "output", "relation": "b"},
        ],
    }


def generated(count: int) -> dict:
    """The generated document: a hundred tokens through a chain of stages, as a process network."""
    names = ["src", *(f"s{number}" for number in range(1, count + 1)), "sink"]
    entities = [entity("src", "Ramp", firingCountLimit=100), *(stage(number) for number in range(1, count + 1)), entity("sink", "Discard")]
    groups = [[f"{source}.output", f"{place}.input"] for source, place in zip(names, names[1:])]
    document = job(director("PN"), entities, groups, [f"s{count}.output"])
    document["model"]["name"] = "gen"
    return document


def plain(part):
    """A document without lists that are empty and truth values that are false, which are as good as absent."""
    if isinstance(part, dict):
        parts = {key: plain(value) for key, value in part.items()}
        return {key: value for key, value in parts.items() if value not in ([], False)}
    return [plain(item) for item in part] if isinstance(part, list) else part
