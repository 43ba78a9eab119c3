import json

from models import director, entity, job, joined

inner = {
    **entity("S", "Composite"),
    "properties": [director("SDF", iterations="1" * 100_000)],
    "ports": [{"name": "in", "input": True}, {"name": "out", "output": True}],
    "entities": [entity("k", "Scale", factor=3)],
    **joined(["in", "k.input"], ["k.output", "out"]),
}
print(json.dumps(job(director("SDF", iterations=3), [entity("r", "Ramp"), inner], [["r.output", "S.in"]], ["S.out"])))
