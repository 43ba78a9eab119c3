import sys

# 333 of the thousand stages turn the sign.
lines = ["trace s1000.output", *(f"{number} 0.0 {-number}" for number in range(100)), "end deadlock"]
if sys.stdin.read() != "\n".join(lines) + "\n":
    print("not the hundred numbers from 0 down to -99")
    sys.exit(1)
