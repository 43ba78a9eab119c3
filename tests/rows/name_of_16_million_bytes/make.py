import sys

from models import SMALL

sys.stdout.write(SMALL.replace('"name":"Ramp"', '"name":"' + "R" * (16_777_216 - len(SMALL) + len("Ramp")) + '"'))
