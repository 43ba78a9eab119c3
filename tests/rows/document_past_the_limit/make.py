import sys

from models import SMALL

sys.stdout.write(SMALL.ljust(16_777_217))
