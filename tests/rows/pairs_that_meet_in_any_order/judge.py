import sys
from collections import Counter

# The last sender begins at 99,900, and its receiver doubles. Each line has the next index; each pair has its hundred meetings.
lines = sys.stdin.read().splitlines()
trace = ["trace k999.output", *(f"{number} 0.0 {2 * (99_900 + number)}" for number in range(100)), "meetings ."]
met = [line.split(" ", 2) for line in lines[102:-1]]
wanted = Counter({f"meet k{number}.input.0": 100 for number in range(1000)})
if lines[:102] != trace or lines[-1] != "end deadlock":
    print("not the hundred values of the last pair, or another end")
    sys.exit(1)
if [line[:2] for line in met] != [["0", str(index)] for index in range(100_000)] or Counter(line[2] for line in met) != wanted:
    print("not a hundred meetings of each pair, numbered in their order")
    sys.exit(1)
