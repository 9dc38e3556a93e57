"""Makes the calls that standard input asks for, as c/calls.c does, and prints what they answer: a line for each, with
the bytes in hex. A request is a letter, four lengths or numbers of four bytes, and the bytes of two inputs."""

import struct
import sys

import cockledrift
import list as example


def salvaged(file):
    sheet, number, place, left = cockledrift.salvage(file)
    return f"{number} {place} {left} {sheet.bytes.hex()}"


def records(found):
    """The records of a step reader, by their bytes, with what was kept."""
    return " ".join(f"{record.lay().hex()}:{kept}" for record, kept in found)


def steps(file):
    """One step at a time: `-` for no record."""
    reader, said = cockledrift.Reader(file), []
    while (found := reader.step()) is not cockledrift.END:
        said.append(records([found]) if found else "-")
    return " ".join(said)


def reached(sheet, name):
    legs, least, greatest = cockledrift.reach(sheet, name)
    return " ".join(map(str, (legs, *least, *greatest)))


def told(summary, first, count):
    """The words of a summary, and what a stretch holds."""
    words = b"".join(struct.pack("<Q", word) for word in summary.words)
    found, following = summary.entrances(first, count)
    return f"{summary.records} {words.hex()} {found} {'-' if following is None else following}"


def updated(sheet, first, count, new):
    """The same after an edit: all of it."""
    summary = cockledrift.Summary(sheet)
    summary.update(first, count, new)
    return told(summary, 0, summary.records)


def compared(a, b):
    which, line = cockledrift.compare(a, b)
    return f"{which} {line.hex()}"


def parts(data, first):
    """The digest of bytes that come in two parts."""
    running = cockledrift.Sha256()
    running.update(data[:first])
    running.update(data[first:])
    return running.digest().hex()


CALLS = {
    "r": lambda a, b, first, count: cockledrift.read(a).bytes.hex(),
    "v": lambda a, b, first, count: salvaged(a),
    "i": lambda a, b, first, count: cockledrift.read_strict(a, first or None).bytes.hex(),
    "t": lambda a, b, first, count: b"".join(r.lay() for r in cockledrift.Sheet(a).records()).hex(),
    "w": lambda a, b, first, count: cockledrift.write(a).hex(),
    "7": lambda a, b, first, count: cockledrift.write_v7(a).hex(),
    "c": lambda a, b, first, count: cockledrift.convert(a).hex(),
    "e": lambda a, b, first, count: cockledrift.edit(a, first, count, b).hex(),
    "l": lambda a, b, first, count: compared(a, b),
    "x": lambda a, b, first, count: reached(a, b),
    "g": lambda a, b, first, count: bytes(cockledrift.viewer_legs(a, struct.unpack("<3i", b))).hex(),
    "y": lambda a, b, first, count: told(cockledrift.Summary(a), first, count),
    "u": lambda a, b, first, count: updated(a, first, count, b),
    "s": lambda a, b, first, count: steps(a),
    "n": lambda a, b, first, count: records(cockledrift.Reader(a)),
    "p": lambda a, b, first, count: "\n".join(example.lines(a)).encode().hex(),
    "d": lambda a, b, first, count: cockledrift.sha256(a).hex(),
    "D": lambda a, b, first, count: parts(a, first),
    "m": lambda a, b, first, count: cockledrift.message(first),
}

while head := sys.stdin.buffer.read(17):
    letter, a, b, first, count = struct.unpack("<c4I", head)
    a, b = sys.stdin.buffer.read(a), sys.stdin.buffer.read(b)
    try:
        print("done", CALLS[letter.decode()](a, b, first, count))
    except cockledrift.Refusal as refusal:
        print(refusal)
