import sys
import cockledrift

with open(sys.argv[1], "rb") as file:
    v8 = cockledrift.convert(file.read())
station = cockledrift.Station(flags=4, at=(100, 0, 0), label=b"a.1")
edited = cockledrift.edit(v8, 0, 2, [station])  # two records, from record 0 on, make way for it
with open(sys.argv[2], "wb") as file:
    file.write(edited)
print(len(list(cockledrift.read(edited).records())), "records in", len(edited), "bytes")
