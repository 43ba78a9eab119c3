import sys

head = '{"version":1,"model":{"name":"top","class":"Composite"},"inputs":['
chain = '{"":' * 125 + "0" + "}" * 125
count = (16_777_216 - len(head) - 2) // (len(chain) + 1)
sys.stdout.write(head + ",".join([chain] * count) + "]}")
