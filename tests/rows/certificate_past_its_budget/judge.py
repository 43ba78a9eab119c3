import re
import sys

found = re.fullmatch(r"refused budget (\d+)\n", sys.stdin.read())
if not found or int(found[1]) < 3:
    print("not a count of three at least")
    sys.exit(1)
