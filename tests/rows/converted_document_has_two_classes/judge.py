import json
import sys

wrote = json.load(sys.stdin)
kinds = [entity["class"] for entity in wrote["model"]["entities"]]
counts = {kind: kinds.count(kind) for kind in ("C1", "C2", "Composite")}
factors = [body["body"]["entities"][0]["properties"][0]["value"] for body in wrote["classes"]]
names = [body["name"] for body in wrote["classes"]]
if wrote["version"] != 2 or names != ["C1", "C2"] or factors != ["1", "-1"] or counts != {"C1": 67, "C2": 33, "Composite": 0}:
    print(f"version {wrote['version']}, classes {names} of factors {factors}, instances {counts}")
    sys.exit(1)
