import sys

from models import SMALL

ports = ",".join(f'{{"name":"p{number}","input":true}}' for number in range(300_000))
composite = '{"name":"t","class":"Composite","ports":[' + ports + "]}"
sys.stdout.write(SMALL.replace('"entities":[', '"entities":[' + composite + ","))
