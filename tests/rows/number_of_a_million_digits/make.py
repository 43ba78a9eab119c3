import sys

sys.stdout.write('{"version":' + "9" * 1_000_000 + ",\"model\":{}}")
