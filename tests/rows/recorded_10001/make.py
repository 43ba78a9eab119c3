import json
import sys

from models import director, entity, job

fields = [f"f{number}" for number in range(10_001)]
source = entity("c", "Const", value="{f0 = 1}")
parts = {**entity("d", "RecordDisassembler"), "ports": [{"name": field, "output": True} for field in fields]}
json.dump(job(director("SDF", iterations=1), [source, parts], [["c.output", "d.input"]], [f"d.{field}" for field in fields]), sys.stdout)
