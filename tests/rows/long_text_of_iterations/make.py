import sys

from models import SMALL

sys.stdout.write(SMALL.replace('"value":"3"', '"value":"' + "3".rjust(65_537, "0") + '"'))
