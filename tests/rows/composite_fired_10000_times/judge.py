import sys

# Tick t brings the token t, which comes twice to a process that needs four tokens: so at each odd tick the sum of the odd numbers up to it.
words = ["meet k.input.0", "meet d.input.0", "meet d.input.0", "meet x.input.0", "out out"]
lines = ["trace N.out", *(f"{number} {2 * number + 1}.0 {(number + 1) ** 2}" for number in range(5_000)), "meetings N"]
for firing in range(10_000):
    lines += [f"{firing} {index} {word}" for index, word in enumerate(words[: 5 if firing % 2 else 3])]
if sys.stdin.read().splitlines() != [*lines, "end iterations"]:
    print("not the squares at the odd ticks, or not three and five meetings by turns")
    sys.exit(1)
