import re
import sys

wrote = sys.stdin.read()
found = re.fullmatch(r"trace c\.output\n0 0\.0 1\nend budget (\d+)\n", wrote)
if not found or int(found[1]) < 100:
    print("not one event and a count of a hundred at least")
    sys.exit(1)
