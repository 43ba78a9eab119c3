import sys

from models import SMALL

sys.stdout.write(SMALL.replace('"version":1', '"version":0,' * 1_000_000 + '"version":1'))
