import sys

from models import SMALL

front, back = '{"name":"Ramp","class":"Ramp","properties":[{"name":"_x","value":"', '"}]}'
count = (16_777_216 - len(SMALL) - len(front) - len(back)) // 6
sys.stdout.write(SMALL.replace('{"name":"Ramp","class":"Ramp"}', front + "\\u0000" * count + back))
