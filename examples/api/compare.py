import sys
import cockledrift

with open(sys.argv[1], "rb") as one, open(sys.argv[2], "rb") as two:
    which, line = cockledrift.compare(one.read(), two.read())
print(f"file {which}: {line.decode()}" if which else "the same second")
