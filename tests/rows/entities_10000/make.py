import json
import sys

from models import director, entity, job

# With the top and the ramp these are 10,000.
empty = [entity(f"c{number}", "Composite") for number in range(9_998)]
json.dump(job(director("SDF", iterations=2), [*empty, entity("r", "Ramp", init=3)], [], ["r.output"]), sys.stdout)
