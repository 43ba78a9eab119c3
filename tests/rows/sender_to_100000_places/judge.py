import sys

met = [f"0 {place} meet a.plus.{place}" for place in range(100_000)]
if sys.stdin.read().splitlines() != ["trace a.output", "0 0.0 300000", "meetings .", *met, "end deadlock"]:
    print("not a meeting at each place, in their order, or not three times their number")
    sys.exit(1)
