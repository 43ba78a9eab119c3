import sys

sys.stdout.write("\0" * 16_777_216)
