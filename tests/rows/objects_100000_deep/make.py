import sys

sys.stdout.write('{"a":' * 100_000 + "1" + "}" * 100_000)
