import json
import sys

from made import ring

json.dump(ring(9000, 1), sys.stdout)
