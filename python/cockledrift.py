"""Survex 3d files (cave surveys), versions 3 to 8, through the proved library libcockledrift.so.

    sheet = cockledrift.read(file)              # the bytes of a file -> Sheet, with .header and .records()
    file = cockledrift.write(sheet)             # a Sheet or its bytes -> the bytes of a v8 file; write_v7: of a v7 file
    new = cockledrift.convert(file)             # any version -> the bytes of a v8 file
    new = cockledrift.edit(new, 0, 1, [record]) # a run of records replaced by others
    which, line = cockledrift.compare(a, b)     # 1 or 2, the later file, with its time line; or 0 and b""
    count, first = cockledrift.Summary(sheet).entrances()   # its entrances, and the record of the next one or None
    for record, kept in cockledrift.Reader(file): ...   # an item at a time
    numbers = cockledrift.viewer_legs(sheet, origin)    # six floats a leg, less the origin

Bad bytes raise Refusal, which has a number, a place and a message. docs/API.md shows more, docs/FORMAT.md has the bytes
of files and sheets and the order of refusals. Threads may call at once: the library keeps nothing between calls.

The library is looked for in COCKLEDRIFT_LIBRARY, a path, and else where the system has its shared libraries.
"""

import ctypes
import os
import struct
from typing import NamedTuple, Optional, Tuple, Union

LABEL_LIMIT = 4096
RECORD_LIMIT = 34 + LABEL_LIMIT
STAND_NUMBERS = 14
BUFFER_TOO_SMALL = 11

# ---- the library

_u64, _size, _bytes, _out = ctypes.c_uint64, ctypes.c_size_t, ctypes.c_char_p, ctypes.POINTER(ctypes.c_char)


def _numbers(*fields):
    """A struct of the header: unsigned numbers of eight bytes."""
    return type("Numbers", (ctypes.Structure,), {"_fields_": [(name, _u64) for name in fields]})


_Answer = _numbers("number", "bytes", "records", "version")
_Salvaged = _numbers("refused", "bytes", "records", "version", "number", "place", "left")
_Compared = _numbers("which", "file", "number", "place", "length")
_Opened = _numbers("number", "place", "version")
_Stepped = _numbers("what", "bytes", "kept", "number")


class _Reached(ctypes.Structure):
    _fields_ = [("number", _u64), ("place", _u64), ("legs", _u64), ("bounds", ctypes.c_int32 * 6)]


_Viewed = _numbers("number", "place", "legs")
_Summed = _numbers("number", "place", "words")
_Stretch = _numbers("number", "place", "count", "found", "next")
_Stand, _Label = _u64 * STAND_NUMBERS, ctypes.c_char * LABEL_LIMIT

_library = ctypes.CDLL(os.environ.get("COCKLEDRIFT_LIBRARY", "libcockledrift.so.0"))


def _declare(name, answer, *arguments):
    function = getattr(_library, "cockledrift_" + name)
    function.restype, function.argtypes = answer, arguments
    return function


_step_arguments = (_bytes, _size, ctypes.POINTER(_Stand), ctypes.POINTER(_Label), _out, _size)
_read = _declare("read", _Answer, _bytes, _size, _out, _size)
_salvage = _declare("salvage", _Salvaged, _bytes, _size, _out, _size)
_read_strict = _declare("read_strict", _Answer, _bytes, _size, _out, _size, _out, _size, ctypes.c_uint64)
_write = _declare("write", _Answer, _bytes, _size, _out, _size)
_write_v7 = _declare("write_v7", _Answer, _bytes, _size, _out, _size)
_convert = _declare("convert", _Answer, _bytes, _size, _out, _size, _out, _size)
_edit = _declare("edit", _Answer, _bytes, _size, _size, _size, _bytes, _size, _out, _size)
_compare = _declare("compare", _Compared, _bytes, _size, _bytes, _size)
_reach = _declare("reach", _Reached, _bytes, _size, _bytes, _size)
_i32, _floats = ctypes.c_int32, ctypes.POINTER(ctypes.c_float)
_viewer_legs = _declare("viewer_legs", _Viewed, _bytes, _size, _i32, _i32, _i32, _floats, _size)
_words, _u32 = ctypes.POINTER(_u64), ctypes.c_uint32
_summary = _declare("summary", _Summed, _bytes, _size, _words, _size)
_entrances = _declare("entrances", _Stretch, _words, _size, _u32, _size, _size)
_summary_update = _declare("summary_update", _Summed, _words, _size, _u32, _size, _size, _bytes, _size)
_open = _declare("open", _Opened, _bytes, _size, ctypes.POINTER(_Stand))
_step = _declare("step", _Stepped, *_step_arguments)
_next = _declare("next", _Stepped, *_step_arguments)
_Running, _Block = _u64 * 9, ctypes.c_char * 64
_sha256 = _declare("sha256", None, _bytes, _size, _out)
_sha256_start = _declare("sha256_start", None, ctypes.POINTER(_Running))
_sha256_update = _declare("sha256_update", None, ctypes.POINTER(_Running), ctypes.POINTER(_Block), _bytes, _size)
_sha256_finish = _declare("sha256_finish", None, ctypes.POINTER(_Running), ctypes.POINTER(_Block), _out)
_message = _declare("message", ctypes.c_char_p, _u64)


def message(number: int) -> str:
    """What a number says, in a few words: those of the header for C."""
    return _message(number).decode()


class Refusal(ValueError):
    """A refusal, by its number and place; `file` is 1 or 2 where one of two files was refused, else 0."""

    def __init__(self, number: int, place: int, file: int = 0):
        self.number, self.place, self.file = number, place, file
        self.message = message(number)
        which = ("", "the first file: ", "the second file: ")[file]
        super().__init__(f"{which}refused {number} at {place}: {self.message}")


def _filled(call) -> Tuple[bytes, int]:
    """What a call writes, in a buffer as long as it needs, and the version that it answers."""
    buffer = ctypes.create_string_buffer(1)
    answer = call(buffer, 0)
    if answer.number == BUFFER_TOO_SMALL:
        buffer = ctypes.create_string_buffer(answer.bytes)
        answer = call(buffer, len(buffer))
    if answer.number:
        raise Refusal(answer.number, answer.bytes)
    return buffer.raw[: answer.bytes], answer.version


# ---- records

Point = Tuple[int, int, int]
Date = Union[None, int, Tuple[int, int]]  # none, a day from 1 January 1900, or a first and a last day


class Header(NamedTuple):
    extended: bool
    title: bytes
    time: bytes


class Leg(NamedTuple):
    flags: int
    style: int
    date: Date
    start: Point
    end: Point
    label: bytes

    def lay(self) -> bytes:
        """The record's bytes in a sheet, its length bytes first."""
        numbers = struct.pack(">3B5s6i", 1, self.flags, self.style, _date_bytes(self.date), *self.start, *self.end)
        return _laid(numbers + self.label)


class Station(NamedTuple):
    flags: int
    at: Point
    label: bytes

    def lay(self) -> bytes:
        return _laid(struct.pack(">2B3i", 2, self.flags, *self.at) + self.label)


class Section(NamedTuple):
    last: bool
    date: Date
    sides: Tuple[int, int, int, int]  # left, right, up, down; -1 was left out
    label: bytes

    def lay(self) -> bytes:
        return _laid(struct.pack(">2B5s4i", 3, self.last, _date_bytes(self.date), *self.sides) + self.label)


class Traverse(NamedTuple):
    legs: int
    length: int
    error: int
    horizontal: int
    vertical: int

    def lay(self) -> bytes:
        return _laid(struct.pack(">B5i", 4, *self))


Record = Union[Leg, Station, Section, Traverse]


def _laid(record: bytes) -> bytes:
    # A record over 65535 bytes has a label over the limit, and is refused at any length.
    return struct.pack(">H", min(len(record), 0xFFFF)) + record


def _date_bytes(date: Date) -> bytes:
    if date is None:
        return bytes(5)
    return struct.pack(">B2H", 1, date, 0) if isinstance(date, int) else struct.pack(">B2H", 2, *date)


def _date(kind: int, day: int, last: int) -> Date:
    return (None, day, (day, last))[kind]


def _record(record: bytes, version: int = 2) -> Record:
    """The record in these bytes, its length bytes left out."""
    if record[0] == 1:
        flags, style, kind, day, last, *numbers = struct.unpack_from(">3B2H6i", record, 1)
        return Leg(flags, style, _date(kind, day, last), tuple(numbers[:3]), tuple(numbers[3:]), record[32:])
    if record[0] == 2:
        flags, *numbers = struct.unpack_from(">B3i", record, 1)
        return Station(flags, tuple(numbers), record[14:])
    if record[0] == 3 and version == 1:
        end, *sides = struct.unpack_from(">B4i", record, 1)
        return Section(bool(end), None, tuple(sides), record[18:])
    if record[0] == 3:
        end, kind, day, last, *sides = struct.unpack_from(">2B2H4i", record, 1)
        return Section(bool(end), _date(kind, day, last), tuple(sides), record[23:])
    return Traverse(*struct.unpack_from(">5i", record, 1))


class Sheet:
    """A survey as a list of records: `bytes`, `header`, and `version`, that of the file it was read from, or None."""

    def __init__(self, sheet: bytes, version: Optional[int] = None):
        """The sheet in these bytes, of version 1 or 2, where they keep the layout: else refusal 12."""
        answer = _write(sheet, len(sheet), ctypes.create_string_buffer(1), 0)
        if answer.number == 12:
            raise Refusal(answer.number, answer.bytes)
        self.bytes, self.version = sheet, version

    @property
    def header(self) -> Header:
        header = next(self._parts())
        title = 4 + int.from_bytes(header[2:4], "big")
        return Header(bool(header[1]), header[4:title], header[title:])

    def records(self):
        """The records, in order."""
        parts = self._parts()
        next(parts)
        return (_record(part, self.bytes[0]) for part in parts)

    def _parts(self):
        place = 1
        while place < len(self.bytes):
            start = place + 2
            place = start + int.from_bytes(self.bytes[place:start], "big")
            yield self.bytes[start:place]


# ---- calls


def read(file: bytes) -> Sheet:
    """The sheet of a file, v3 to v8."""
    return Sheet(*_filled(lambda out, room: _read(file, len(file), out, room)))


def read_strict(file: bytes, seed: Optional[int] = None) -> Sheet:
    """The sheet of a file, v3 to v8, read strictly: cross-sections at known stations, stations at one place each.

    No answer hangs on the seed, which is drawn at random where none is given."""
    if seed is None:
        seed = int.from_bytes(os.urandom(8), "little")
    found = salvage(file).sheet.records()
    names = sum(32 + len(record.label) for record in found if isinstance(record, Station))
    room = ctypes.create_string_buffer(names + 1)
    return Sheet(*_filled(lambda out, size: _read_strict(file, len(file), out, size, room, names, seed)))


class Salvaged(NamedTuple):
    sheet: Sheet
    number: int  # the refusal that read gives, or 0 for a whole file
    place: int  # its place, or the file's length
    left: int  # the file's bytes from that place on


def salvage(file: bytes) -> Salvaged:
    """What can be saved of a file: the sheet of all records made by items before the first refused one."""
    buffer = ctypes.create_string_buffer(1)
    answer = _salvage(file, len(file), buffer, 0)
    if answer.refused == BUFFER_TOO_SMALL:
        buffer = ctypes.create_string_buffer(answer.place)
        answer = _salvage(file, len(file), buffer, len(buffer))
    if answer.refused:
        raise Refusal(answer.refused, answer.place)
    return Salvaged(Sheet(buffer.raw[: answer.bytes], answer.version), answer.number, answer.place, answer.left)


def _sheet_bytes(sheet: Union[Sheet, bytes]) -> bytes:
    return sheet.bytes if isinstance(sheet, Sheet) else sheet


def write(sheet: Union[Sheet, bytes]) -> bytes:
    """The v8 file of a sheet."""
    sheet = _sheet_bytes(sheet)
    return _filled(lambda out, room: _write(sheet, len(sheet), out, room))[0]


def write_v7(sheet: Union[Sheet, bytes]) -> bytes:
    """The v7 file of a sheet, for older programs."""
    sheet = _sheet_bytes(sheet)
    return _filled(lambda out, room: _write_v7(sheet, len(sheet), out, room))[0]


def convert(file: bytes) -> bytes:
    """A file of any version as a v8 file."""
    room = len(read(file).bytes)
    sheet = ctypes.create_string_buffer(room)
    return _filled(lambda out, length: _convert(file, len(file), sheet, room, out, length))[0]


def _records_bytes(records) -> bytes:
    return records if isinstance(records, bytes) else b"".join(record.lay() for record in records)


def edit(file: bytes, first: int, count: int, new=()) -> bytes:
    """A v8 file with `count` records, from record `first` on, replaced by `new`: records, or their bytes. The file has
    to be what `write` gives for its sheet: `convert` makes it so."""
    laid = _records_bytes(new)
    return _filled(lambda out, room: _edit(file, len(file), first, count, laid, len(laid), out, room))[0]


class Reach(NamedTuple):
    legs: int
    least: Point
    greatest: Point


def reach(sheet: Union[Sheet, bytes], name: bytes = b"") -> Reach:
    """How far the legs reach whose label is the name, or begins with it and then a dot; the empty name takes all."""
    sheet = _sheet_bytes(sheet)
    answer = _reach(sheet, len(sheet), name, len(name))
    if answer.number:
        raise Refusal(answer.number, answer.place)
    return Reach(answer.legs, tuple(answer.bounds[:3]), tuple(answer.bounds[3:]))


def viewer_legs(sheet: Union[Sheet, bytes], origin: Point = (0, 0, 0)) -> ctypes.Array:
    """The legs of a sheet for the viewer, in sheet order, as an array of c_float: from x y z, then to x y z, less the
    origin, each exactly that number of centimetres. Three i32 are an origin; others raise OverflowError."""
    if not all(-(2**31) <= number < 2**31 for number in origin):
        raise OverflowError("an origin is three i32")
    sheet = _sheet_bytes(sheet)
    numbers = (ctypes.c_float * 1)()
    answer = _viewer_legs(sheet, len(sheet), *origin, numbers, 0)
    if answer.number == BUFFER_TOO_SMALL:
        numbers = (ctypes.c_float * answer.place)()
        answer = _viewer_legs(sheet, len(sheet), *origin, numbers, len(numbers))
    if answer.number:
        raise Refusal(answer.number, answer.place)
    return numbers if answer.legs else (ctypes.c_float * 0)()


class Entrances(NamedTuple):
    count: int  # the entrances of the stretch: stations with flag 0x04
    next: Optional[int]  # the first one at or after its start, even past its end


class Summary:
    """A summary of a sheet's entrances: `words`, a mark for each record and then running totals, and `records`."""

    def __init__(self, sheet: Union[Sheet, bytes]):
        sheet = sheet if isinstance(sheet, Sheet) else Sheet(sheet)
        self.records = sum(1 for _ in sheet.records())
        self.words = [0] * (2 * ((self.records + 63) // 64))
        self._fill(lambda words, room: _summary(sheet.bytes, len(sheet.bytes), words, room))

    def entrances(self, start: int = 0, end: Optional[int] = None) -> Entrances:
        """How many entrances the records hold from `start` up to but not including `end`, and which is the next."""
        end = self.records if end is None else end
        words = (_u64 * len(self.words))(*self.words)
        answer = _entrances(words, len(words), self.records, start, end)
        if answer.number:
            raise Refusal(answer.number, answer.place)
        return Entrances(answer.count, answer.next if answer.found else None)

    def update(self, first: int, count: int, new=()) -> None:
        """The summary after an accepted edit with this run and replacement."""
        laid = _records_bytes(new)
        self._fill(lambda words, room: _summary_update(words, room, self.records, first, count, laid, len(laid)))
        place, added = 0, 0
        while place < len(laid):
            place, added = place + 2 + int.from_bytes(laid[place : place + 2], "big"), added + 1
        self.records += added - count

    def _fill(self, call) -> None:
        """Has a call change the words, with as many behind them as it needs; a refusal changes nothing."""
        words = (_u64 * len(self.words))(*self.words)
        answer = call(words, len(words))
        if answer.number == BUFFER_TOO_SMALL:
            words = (_u64 * answer.place)(*self.words)
            answer = call(words, len(words))
        if answer.number:
            raise Refusal(answer.number, answer.place)
        self.words = list(words[: answer.words])


def compare(first: bytes, second: bytes) -> Tuple[int, bytes]:
    """1 or 2, the file that is later, with its time line; or 0 and b"" where both say the same second."""
    answer = _compare(first, len(first), second, len(second))
    if answer.which == 3:
        raise Refusal(answer.number, answer.place, answer.file)
    file = (b"", first, second)[answer.which]
    return answer.which, file[answer.place : answer.place + answer.length]


def sha256(data: bytes) -> bytes:
    """The SHA-256 of bytes."""
    digest = ctypes.create_string_buffer(32)
    _sha256(data, len(data), digest)
    return digest.raw


class Sha256:
    """The SHA-256 of bytes that come in parts: update for each, and digest."""

    def __init__(self):
        self._running, self._block = _Running(), _Block()
        _sha256_start(self._running)

    def update(self, data: bytes) -> None:
        _sha256_update(self._running, self._block, data, len(data))

    def digest(self) -> bytes:
        digest = ctypes.create_string_buffer(32)
        _sha256_finish(self._running, self._block, digest)
        return digest.raw


END = "end"


class Reader:
    """Goes through a file, an item at a time: an iterator of records, each with the bytes of its label that stayed
    since the last item with one. `version` is the file's, `place` that of its first item."""

    def __init__(self, file: bytes):
        self._file, self._stand, self._label = file, _Stand(), _Label()
        self._record = ctypes.create_string_buffer(RECORD_LIMIT)
        opened = _open(file, len(file), self._stand)
        if opened.number:
            raise Refusal(opened.number, opened.place)
        self.version, self.place = opened.version, opened.place

    def __iter__(self):
        return self

    def _stepped(self, call):
        answer = call(self._file, len(self._file), self._stand, self._label, self._record, RECORD_LIMIT)
        if answer.what == 4:
            raise Refusal(answer.number, answer.bytes)
        if answer.what == 3:
            return END
        return (_record(self._record[2 : answer.bytes]), answer.kept) if answer.what == 1 else None

    def __next__(self) -> Tuple[Record, int]:
        found = self._stepped(_next)
        if found is END:
            raise StopIteration
        return found

    def step(self):
        """One step, over exactly one item: its record with the bytes kept, None where it makes no record, or END."""
        return self._stepped(_step)
