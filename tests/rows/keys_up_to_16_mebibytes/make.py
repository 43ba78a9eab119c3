import sys

from models import SMALL

sys.stdout.write(SMALL[:-1] + "".join(f',"{number:07}":0' for number in range(1_250_000)) + "}")
