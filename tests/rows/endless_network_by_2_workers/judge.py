import re
import sys

# A prefix of 0, 1, 2 and so on, and a count of the budget at least.
wrote = sys.stdin.read()
found = re.fullmatch(r"trace r\.output\n((?:\d+ 0\.0 \d+\n)*)end budget (\d+)\n", wrote)
lines = found[1].splitlines() if found else []
if not found or lines != [f"{number} 0.0 {number}" for number in range(len(lines))] or int(found[2]) < 10:
    print("no prefix of the whole numbers, or a count below ten")
    sys.exit(1)
if len(lines) > int(found[2]):
    print("more tokens than firings")
    sys.exit(1)
