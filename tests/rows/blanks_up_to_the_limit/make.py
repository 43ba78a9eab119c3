import sys

sys.stdout.write(" " * 16_777_216)
