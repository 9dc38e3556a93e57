"""Lists a 3d file, as list.c does: a line for its header, one for each record, and how many there are."""

import sys

import cockledrift
from cockledrift import Leg, Section, Station


def text(name):
    if name in (b"", b"-"):
        return "%2d" if name else "-"
    return "".join(chr(byte) if 33 <= byte <= 126 and byte != ord("%") else f"%{byte:02x}" for byte in name)


def day(date):
    if date is None:
        return "none"
    return str(date) if isinstance(date, int) else "{}-{}".format(*date)


def line(record):
    if isinstance(record, Leg):
        words = "leg", record.flags, record.style, day(record.date), *record.start, *record.end, text(record.label)
    elif isinstance(record, Station):
        words = "station", record.flags, *record.at, text(record.label)
    elif isinstance(record, Section):
        words = "xsect", int(record.last), day(record.date), *record.sides, text(record.label)
    else:
        words = "error", *record
    return " ".join(map(str, words))


def lines(file):
    sheet = cockledrift.read(file)
    extended, title, time = sheet.header
    yield f"version {sheet.version} title {text(title)} time {text(time)} extended {int(extended)}"
    yield from map(line, sheet.records())
    yield f"end {sum(1 for _ in sheet.records())}"


if __name__ == "__main__":
    try:
        with open(sys.argv[1], "rb") as file:
            print(*lines(file.read()), sep="\n")
    except cockledrift.Refusal as refusal:
        print(refusal)
        sys.exit(1)
