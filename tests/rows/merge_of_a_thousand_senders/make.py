import json
import sys

from made import visitors

json.dump(visitors(1000), sys.stdout)
