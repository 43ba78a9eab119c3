import json
import sys

from models import director, entity, job

empty = [entity(f"c{number}", "Composite") for number in range(50_000)]
document = job(director("SDF", iterations=2), [*empty, entity("r", "Ramp", init=3)], [], ["r.output"])
json.dump({**document, "version": 2}, sys.stdout)
