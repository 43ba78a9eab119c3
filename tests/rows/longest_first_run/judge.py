import sys

# The last scale has factor -25, and its ramp begins at 24.
values = (-25 * (24 + firing) for firing in range(10_000))
lines = ["trace s24.output", *(f"{number} 0.0 {value}" for number, value in enumerate(values)), "end iterations"]
wrote = sys.stdin.read()
if wrote != "\n".join(lines) + "\n":
    print(f"{wrote.count(chr(10))} lines, and not the 10,000 multiples of -25 from 24 on")
    sys.exit(1)
