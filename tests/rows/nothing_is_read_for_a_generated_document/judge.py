import json
import sys

from models import generated, plain

wrote = json.load(sys.stdin)
if plain(wrote) != plain(generated(2)):
    print("another document than the generated one of 2 stages")
    sys.exit(1)
