import sys

sys.stdout.write('"' + "x" * 16_777_215)
