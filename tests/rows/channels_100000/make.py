import json
import sys

from models import director, entity, job

group = ["r.output"] + ["a.plus"] * 100_000
json.dump(job(director("SDF", iterations=2), [entity("r", "Ramp"), entity("a", "AddSubtract")], [group], ["a.output"]), sys.stdout)
