import sys

from models import SMALL

composite = '{"name":"t","class":"Composite","ports":[{"name":"i","input":true,"type":"' + "arrayType(" * 1_000_000 + 'int"}]}'
sys.stdout.write(SMALL.replace('"entities":[', '"entities":[' + composite + ","))
