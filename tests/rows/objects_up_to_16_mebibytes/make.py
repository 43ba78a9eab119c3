import sys

head = '{"version":1,"model":{"name":"top","class":"Composite"},"inputs":[{"":0}'
sys.stdout.write(head + ',{"":0}' * ((16_777_216 - len(head) - 2) // 7) + "]}")
