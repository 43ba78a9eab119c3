import sys

from models import SMALL

sys.stdout.write(SMALL.replace('["Scale.output"]', "[" + ",".join(['"Scale.output"'] * 10_001) + "]"))
