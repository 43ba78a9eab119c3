import sys

from models import SMALL

notes = ",".join(f'{{"name":"_{number}"}}' for number in range(100_000))
sys.stdout.write(SMALL.replace('"class":"Ramp"', f'"class":"Ramp","properties":[{notes}]'))
