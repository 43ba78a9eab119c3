import re
import sys

# 8,999 processes turn the sign of the token that comes back to the last: so it is -1 there, then 1, and so on.
wrote = sys.stdin.read()
found = re.fullmatch(r"trace s8999\.output\n((?:\d+ 0\.0 -?1\n)*)end budget (\d+)\n", wrote)
lines = found[1].splitlines() if found else []
if not found or lines != [f"{number} 0.0 {1 if number % 2 else -1}" for number in range(len(lines))] or int(found[2]) < 100000:
    print("no prefix of -1, 1, -1 and so on, or a count below the budget")
    sys.exit(1)
