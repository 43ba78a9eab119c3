import sys

lines = ["meetings .", *(f"0 {index} meet d.input.0" for index in range(100_000)), "end deadlock"]
if sys.stdin.read().splitlines() != lines:
    print("not the hundred thousand meetings of the one pair")
    sys.exit(1)
