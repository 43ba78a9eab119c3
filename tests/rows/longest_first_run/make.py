import json
import sys

from models import pairs

json.dump(pairs(25, 10_000), sys.stdout)
