import sys
import cockledrift

with open(sys.argv[1], "rb") as file:
    for record in cockledrift.read(file.read()).records():
        if isinstance(record, cockledrift.Station):
            print(record.label.decode(errors="replace"), "at", *record.at)
