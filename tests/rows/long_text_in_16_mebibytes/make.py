import sys

from models import SMALL

room = 16_777_216 - len(SMALL) - len(',"properties":[{"name":"_note","value":""}]')
note = ',"properties":[{"name":"_note","value":"' + "x" * room + '"}]'
sys.stdout.write(SMALL.replace('"class":"Ramp"', '"class":"Ramp"' + note))
