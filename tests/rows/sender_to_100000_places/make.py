import json
import sys

from made import places_in_turn

json.dump(places_in_turn(100_000), sys.stdout)
