import sys

sys.stdout.write("[" * 100_000 + "]" * 100_000)
