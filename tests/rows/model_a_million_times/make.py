import sys

from models import SMALL

sys.stdout.write(SMALL.replace('"model":', '"model":{"":0},' * 1_000_000 + '"model":', 1))
