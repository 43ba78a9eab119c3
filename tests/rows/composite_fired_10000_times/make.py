import json
import sys

from made import fired

json.dump(fired(10_000), sys.stdout)
