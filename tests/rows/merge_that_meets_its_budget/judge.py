import sys

from made import visited

# 500 firings are left once the senders have fired: 250 of the Merge and as many of the sum. No sender meets after the last of them.
lines = sys.stdin.read().splitlines()
order = [int(line.split()[2]) for line in lines[1:251]]
if len(set(order)) != 250 or lines != visited(order, "end budget 1500"):
    print("not 250 senders, or not the values and sums in the order of the meetings")
    sys.exit(1)
