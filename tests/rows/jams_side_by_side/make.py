import json
import sys

from made import jams

json.dump(jams(3000), sys.stdout)
