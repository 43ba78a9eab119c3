import sys

from made import visited

# Sender n gives n on channel n. The Merge takes the next token only once the sum has taken the one before.
lines = sys.stdin.read().splitlines()
order = [int(line.split()[2]) for line in lines[1:1001]]
if sorted(order) != list(range(1000)) or lines != visited(order, "end deadlock"):
    print("not one meeting of each sender, or not the values and sums in the order of the meetings")
    sys.exit(1)
