import sys

from models import SMALL

note = '{"name":"_about","value":"' + "a" * 100_000 + '"},'
sys.stdout.write(SMALL.replace('{"name":"factor"', note + '{"name":"factor"'))
