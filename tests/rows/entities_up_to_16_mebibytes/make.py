import sys

head = '{"version":1,"model":{"name":"top","class":"Composite","properties":[{"name":"d","class":"SDF",' \
    '"properties":[{"name":"iterations","value":"1"}]}],"entities":['
names = ",".join(f'{{"name":"{"abcdefghij"[number % 10]}{number}","class":"Ramp"}}' for number in range(490_000))
sys.stdout.write((head + names + "]}}").ljust(16_777_216))
