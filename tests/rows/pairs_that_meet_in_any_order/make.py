import json
import sys

from made import meeting_pairs

json.dump(meeting_pairs(1000, 100), sys.stdout)
