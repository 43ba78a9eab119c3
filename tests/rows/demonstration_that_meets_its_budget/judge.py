import re
import sys

wrote = sys.stdin.read()
found = re.fullmatch(r"firings (\d+)\ntrace s2\.output (\d+) (-|\d+)\nend budget (\d+)\n", wrote)
if not found or found[1] != found[4] or int(found[1]) < 10:
    print("not a count of ten at least, told twice")
    sys.exit(1)
tokens, last = int(found[2]), found[3]
if last != ("-" if tokens == 0 else str(tokens - 1)):
    print("not a prefix of 0, 1, 2 and so on")
    sys.exit(1)
