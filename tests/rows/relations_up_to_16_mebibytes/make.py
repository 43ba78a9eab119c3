import sys

from models import SMALL

relations = ",".join(f'{{"name":"a{number}"}}' for number in range(230_000))
joins = ",".join(f'{{"relation1":"a{number}","relation2":"a{number + 1}"}}' for number in range(229_999))
text = SMALL.replace('"relations":[{"name":"r"}]', f'"relations":[{{"name":"r"}},{relations}]')
text = text.replace('"links":[{"port":"Ramp.output","relation":"r"}', f'"links":[{{"port":"Ramp.output","relation":"a0"}},{joins},{{"relation1":"a229999","relation2":"r"}}')
sys.stdout.write(text.ljust(16_777_216))
