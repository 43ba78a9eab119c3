import json
import sys

from models import generated, plain

wrote = json.load(sys.stdin)
if plain(wrote) != plain(generated(1)):
    print("another document than the generated one of 1 stages")
    sys.exit(1)
