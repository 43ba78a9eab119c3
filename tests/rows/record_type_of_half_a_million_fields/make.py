import sys

from models import SMALL

fields = ", ".join(f"a{number} = int" for number in range(500_000))
composite = '{"name":"t","class":"Composite","ports":[{"name":"i","input":true,"type":"{' + fields + ', a0 = int}"}]}'
sys.stdout.write(SMALL.replace('"entities":[', '"entities":[' + composite + ","))
