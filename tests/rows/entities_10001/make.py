import json
import sys

from models import director, entity, job

empty = [entity(f"c{number}", "Composite") for number in range(10_001)]
json.dump(job(director("SDF", iterations=2), empty, [], []), sys.stdout)
