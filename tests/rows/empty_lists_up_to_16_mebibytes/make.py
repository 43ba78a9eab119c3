import sys

head = '{"version":1,"model":{"name":"top","class":"Composite"},"record":[[]'
sys.stdout.write(head + ",[]" * ((16_777_216 - len(head) - 2) // 3) + "]}")
