import sys

head = '{"version":1,"model":{"name":"top","class":"Composite"},"record":['
chain = "[" * 125 + "]" * 125
count = (16_777_216 - len(head) - 2) // (len(chain) + 1)
sys.stdout.write(head + ",".join([chain] * count) + "]}")
