import json
import sys

from made import handshakes

json.dump(handshakes(100_000), sys.stdout)
