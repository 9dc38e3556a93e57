/* Cockledrift: Survex 3d files (cave surveys), versions 3 to 8.

   A file is read into a sheet, a list of records in bytes; a sheet is written as a v8 or a v7 file; a v8 file that was
   written here can be edited; two files are compared by their time lines; a step reader goes through a file item by
   item. docs/API.md has a program for each, docs/FORMAT.md the bytes of files and sheets and the order of refusals.

   Lent memory. Each pointer is followed by the number of bytes lent there, that to `words` by the number of 64-bit
   words, but for `stand` and `label`, whose lengths stand in the declaration, and `numbers`, which a count of numbers follows. No pointer is null, not even where no
   bytes are lent. A buffer to fill overlaps nothing else that is lent. What is lent as const is only read. The library
   allocates nothing, keeps no pointer, and touches no byte that is not lent.

   After a call. A refusal leaves every buffer as it was (cockledrift_convert has one exception, told there, and
   cockledrift_read_strict the room for names). Success
   writes from the front of a buffer and leaves the rest as it was. Where nothing but the room is wrong, the refusal is
   COCKLEDRIFT_BUFFER_TOO_SMALL and its place is the length needed: lend no bytes to learn it.

   Threads. The library has no memory of its own, and calls share nothing but what is lent: any number of threads may
   call at once, and may lend the same bytes to read, so long as each fills buffers of its own.

   Every input is answered: none makes a call crash or run for ever. */
#ifndef COCKLEDRIFT_H
#define COCKLEDRIFT_H

#include <stddef.h>
#include <stdint.h>

#ifdef __cplusplus
extern "C" {
#endif

/* No argument that is a pointer may be null. */
#ifdef __GNUC__
#define COCKLEDRIFT_LENT __attribute__((nonnull))
#else
#define COCKLEDRIFT_LENT
#endif

/* ---- Limits */

#define COCKLEDRIFT_FILE_LIMIT 16777216 /* bytes of a file */
#define COCKLEDRIFT_LABEL_LIMIT 4096    /* bytes of a label */
#define COCKLEDRIFT_HEADER_LIMIT 4166   /* bytes of a sheet's header record, with its length bytes */
#define COCKLEDRIFT_RECORD_LIMIT 4130   /* bytes of any other record, with its length bytes */
#define COCKLEDRIFT_STAND_NUMBERS 14    /* numbers that say where a step reader stands */

/* Of SHA-256: bytes of a digest and of a block, and numbers that say what was taken in. */
#define COCKLEDRIFT_DIGEST 32
#define COCKLEDRIFT_BLOCK 64
#define COCKLEDRIFT_RUNNING_NUMBERS 9

/* ---- Refusals: each one's name, its number, and what cockledrift_message says of it. This is the one place where the
   words stand: message.c, the Rust crate and the Python module take them from here. */

#define COCKLEDRIFT_NUMBERS(X) \
    X(COCKLEDRIFT_DONE, 0, "done") \
    X(COCKLEDRIFT_NO_3D_FILE, 1, "no 3d file") \
    X(COCKLEDRIFT_NO_VERSION, 2, "no version from 3 to 8") \
    X(COCKLEDRIFT_BAD_HEADER, 3, "a bad title or time line, or no v8 byte") \
    X(COCKLEDRIFT_RESERVED, 4, "a reserved code or bit") \
    X(COCKLEDRIFT_UNFINISHED, 5, "an item is unfinished, or the end is missing") \
    X(COCKLEDRIFT_LABEL_TOO_SHORT, 6, "the label is too short to drop from") \
    X(COCKLEDRIFT_LABEL_TOO_LONG, 7, "the label is over 4,096 bytes") \
    X(COCKLEDRIFT_NO_POSITION, 8, "a leg with no position to start from") \
    X(COCKLEDRIFT_BAD_DATE, 9, "the last day is before the first, or a day is over 65535") \
    X(COCKLEDRIFT_BYTES_AFTER_END, 10, "bytes after the end") \
    X(COCKLEDRIFT_BUFFER_TOO_SMALL, 11, "the buffer is too small") \
    X(COCKLEDRIFT_BAD_SHEET, 12, "the sheet breaks the layout") \
    X(COCKLEDRIFT_STYLE_UNSAID, 13, "the style cannot be unsaid") \
    X(COCKLEDRIFT_NOT_HOUSE_WRITTEN, 14, "not what the writer gives for this file's sheet") \
    X(COCKLEDRIFT_PAST_LAST_RECORD, 15, "the run ends past the last record") \
    X(COCKLEDRIFT_FILE_TOO_LONG, 16, "the file is over 16,777,216 bytes") \
    X(COCKLEDRIFT_BAD_TIME_LINE, 17, "the time line is not readable") \
    X(COCKLEDRIFT_TOO_FAR, 20, "a leg is too far from the origin") \
    X(COCKLEDRIFT_UNKNOWN_STATION, 18, "a cross-section of a name that no earlier station has") \
    X(COCKLEDRIFT_MOVED_STATION, 19, "a station whose name came earlier at another place") \
    X(COCKLEDRIFT_NO_LEG, 21, "no leg of this survey") \
    X(COCKLEDRIFT_INDEX_FULL, 22, "the room for names is too small") \
    X(COCKLEDRIFT_NOT_IN_V7, 23, "v7 cannot carry it")

#define COCKLEDRIFT_NUMBER(name, number, words) name = number,
enum cockledrift_number { COCKLEDRIFT_NUMBERS(COCKLEDRIFT_NUMBER) };
#undef COCKLEDRIFT_NUMBER

/* What a number says, in a few words; "no such number" for one that no call gives. Never null; not to be freed. */
const char *cockledrift_message(uint64_t number);

/* ---- Whole files and sheets */

/* What reading, writing, converting and editing answer. */
struct cockledrift_answer {
    uint64_t number;  /* COCKLEDRIFT_DONE, or the refusal's number */
    size_t bytes;     /* done: the bytes written; refused: the refusal's place */
    size_t records;   /* done: the records of the sheet, its header not counted; refused: 0 */
    uint64_t version; /* done: the version of the file read or written; refused: 0 */
};

/* Reads a file, v3 to v8. Done: `sheet` has its sheet, of version 2, at the front. */
struct cockledrift_answer cockledrift_read(const uint8_t *file, size_t file_bytes, uint8_t *sheet, size_t sheet_room)
    COCKLEDRIFT_LENT;

/* Reads a file as cockledrift_read does, strictly: a cross-section is refused whose name no earlier station has
   (COCKLEDRIFT_UNKNOWN_STATION), and a station whose name came earlier at another place (COCKLEDRIFT_MOVED_STATION); the
   place is the item's. The names are kept in `room`, of any content: each different name takes its own bytes and 32 more,
   and where the next one does not fit what is left, that is COCKLEDRIFT_INDEX_FULL, at the item's place. However the
   call ends, all of `room` then holds zeros. No answer hangs on `seed`: it keeps a file from being made so that the call
   takes long, and is best drawn at random for files of strangers. */
struct cockledrift_answer cockledrift_read_strict(const uint8_t *file, size_t file_bytes, uint8_t *sheet,
                                                  size_t sheet_room, uint8_t *room, size_t room_bytes, uint64_t seed)
    COCKLEDRIFT_LENT;

/* What salvaging answers: as reading, and a report. */
struct cockledrift_salvaged {
    uint64_t refused; /* COCKLEDRIFT_DONE, or the number of a refusal: then all below is 0 but the place */
    size_t bytes;     /* the bytes of the sheet */
    size_t records;   /* its records, its header not counted */
    uint64_t version; /* the version of the file */
    uint64_t number;  /* the report: the refusal that reading gives, or COCKLEDRIFT_DONE for a whole file */
    size_t place;     /* its place, or the file's length for a whole file; refused: the refusal's place */
    size_t left;      /* the file's bytes from that place on */
};

/* Saves what can be saved of a file whose header reads: `sheet` has the sheet of all records made by items before the
   first refused one at the front. Refused with the header's refusals and COCKLEDRIFT_BUFFER_TOO_SMALL alone. */
struct cockledrift_salvaged cockledrift_salvage(const uint8_t *file, size_t file_bytes, uint8_t *sheet,
                                                size_t sheet_room) COCKLEDRIFT_LENT;

/* Writes a sheet, of version 1 or 2, as a v8 file. Done: `out` has the file at the front. */
struct cockledrift_answer cockledrift_write(const uint8_t *sheet, size_t sheet_bytes, uint8_t *out, size_t out_room)
    COCKLEDRIFT_LENT;

/* Writes a sheet, of version 1 or 2, as a v7 file. Done: `out` has the file at the front. */
struct cockledrift_answer cockledrift_write_v7(const uint8_t *sheet, size_t sheet_bytes, uint8_t *out, size_t out_room)
    COCKLEDRIFT_LENT;

/* Reads a file, then writes it as v8. Done: `sheet` has the sheet and `out` the v8 file at the front; the answer is the
   writer's. Refused by the reader: both are as they were. Refused by the writer: `sheet` has the sheet at the front,
   `out` is as it was. COCKLEDRIFT_BUFFER_TOO_SMALL does not say which of them is too small: cockledrift_read tells.
   Of a v8 file the new one is never longer: an `out` of file_bytes suffices. */
struct cockledrift_answer cockledrift_convert(const uint8_t *file, size_t file_bytes, uint8_t *sheet, size_t sheet_room,
                                              uint8_t *out, size_t out_room) COCKLEDRIFT_LENT;

/* Replaces `count` records of a v8 file, from record `first` on (the first has number 0), by `records`: records as a
   sheet of version 2 has them, each with its length bytes, with no version byte and no header. The file has to be what
   cockledrift_write gives for its sheet: cockledrift_convert makes it so. Done: `out` has the new file at the front. */
struct cockledrift_answer cockledrift_edit(const uint8_t *file, size_t file_bytes, size_t first, size_t count,
                                           const uint8_t *records, size_t records_bytes, uint8_t *out, size_t out_room)
    COCKLEDRIFT_LENT;

/* ---- Which of two files is later */

enum cockledrift_which {
    COCKLEDRIFT_SAME = 0,   /* both time lines say the same second */
    COCKLEDRIFT_FIRST = 1,  /* the first file is later */
    COCKLEDRIFT_SECOND = 2, /* the second file is later */
    COCKLEDRIFT_NEITHER = 3 /* a file is refused */
};

struct cockledrift_compared {
    uint64_t which;  /* an enum cockledrift_which */
    uint64_t file;   /* neither: the file that is refused, 1 or 2; else 0 */
    uint64_t number; /* neither: the refusal's number; else 0 */
    size_t place;    /* where the later file's time line starts in it; neither: the refusal's place; same: 0 */
    size_t length;   /* the bytes of that time line; neither and same: 0 */
};

/* Compares two files by their time lines. Only headers are judged, the first file's first. */
struct cockledrift_compared cockledrift_compare(const uint8_t *first, size_t first_bytes, const uint8_t *second,
                                                size_t second_bytes) COCKLEDRIFT_LENT;

/* ---- How far a survey reaches */

struct cockledrift_reached {
    uint64_t number; /* COCKLEDRIFT_DONE, or the refusal's number */
    size_t place;    /* refused: the refusal's place; done: 0 */
    size_t legs;     /* done: the legs that took part, at least one; refused: 0, as all below */
    int32_t least_x, least_y, least_z;          /* the least over both ends of these legs, in centimetres */
    int32_t greatest_x, greatest_y, greatest_z; /* and the greatest */
};

/* The bounds of all legs of a sheet whose label is the name, or begins with it and then a dot; the empty name takes
   all. Refused with COCKLEDRIFT_BAD_SHEET as for writing, and with COCKLEDRIFT_NO_LEG where no leg takes part. */
struct cockledrift_reached cockledrift_reach(const uint8_t *sheet, size_t sheet_bytes, const uint8_t *name,
                                             size_t name_bytes) COCKLEDRIFT_LENT;

/* ---- Legs for the viewer */

#define COCKLEDRIFT_FARTHEST 16777216 /* centimetres from the origin that each number of a leg may have */

struct cockledrift_viewed {
    uint64_t number; /* COCKLEDRIFT_DONE, or the refusal's number */
    size_t place;    /* refused: the refusal's place; done: 0 */
    size_t legs;     /* done: the legs of the sheet, six numbers each; refused: 0 */
};

/* Writes each leg of a sheet, of version 1 or 2, in sheet order: from x y z, then to x y z, in centimetres less the
   origin, each exactly that number, and zero as plus zero. Done: `numbers` has them at the front, and the rest is as it
   was. Refused with COCKLEDRIFT_BAD_SHEET as for writing, then with COCKLEDRIFT_TOO_FAR and the record number of the
   first leg one of whose numbers would be over COCKLEDRIFT_FARTHEST, or below minus it, then with
   COCKLEDRIFT_BUFFER_TOO_SMALL and the count of numbers needed. */
struct cockledrift_viewed cockledrift_viewer_legs(const uint8_t *sheet, size_t sheet_bytes, int32_t x, int32_t y,
                                                  int32_t z, float *numbers, size_t numbers_room) COCKLEDRIFT_LENT;

/* ---- Entrances at a glance. A summary is kept beside a sheet: a mark for each record, 64 to a word, lowest bit first
   and spare bits 0, then as many words with a running total at each word's start. COCKLEDRIFT_SUMMARY_WORDS says how
   many words so many records take. */

#define COCKLEDRIFT_SUMMARY_WORDS(records) (((records) / 64 + ((records) % 64 != 0)) * 2)

struct cockledrift_summed {
    uint64_t number; /* COCKLEDRIFT_DONE, or the refusal's number */
    size_t place;    /* refused: the refusal's place, of COCKLEDRIFT_BUFFER_TOO_SMALL the words needed; done: 0 */
    size_t words;    /* done: the words that the summary takes; refused: 0 */
};

struct cockledrift_stretch {
    uint64_t number; /* COCKLEDRIFT_DONE, or the refusal's number */
    size_t place;    /* refused: the refusal's place; done: 0 */
    uint64_t count;  /* done: the entrances of the stretch; refused: 0, as all below */
    uint64_t found;  /* 1 where an entrance stands at or after `from`, even past `to`; else 0 */
    size_t next;     /* the first such record; 0 where there is none */
};

/* Makes the summary of a sheet. Refused with COCKLEDRIFT_BAD_SHEET as for writing, then with
   COCKLEDRIFT_BUFFER_TOO_SMALL. */
struct cockledrift_summed cockledrift_summary(const uint8_t *sheet, size_t sheet_bytes, uint64_t *words,
                                              size_t words_lent) COCKLEDRIFT_LENT;

/* How many entrances (stations with flag 0x04) so many records hold from `from` up to but not including `to`, and which
   is the next at or after `from`. Refused with COCKLEDRIFT_BUFFER_TOO_SMALL where the summary is too short for the
   records, then with COCKLEDRIFT_PAST_LAST_RECORD, at the record count, where from is above to or either is above
   the record count. Of words that are no summary of the sheet the next entrance is that of the marks they hold, and the
   count is what their totals say. */
struct cockledrift_stretch cockledrift_entrances(const uint64_t *words, size_t words_lent, uint32_t records,
                                                 size_t from, size_t to) COCKLEDRIFT_LENT;

/* Brings the summary up to date, in its place, after cockledrift_edit was accepted with this run and replacement;
   `records` were in the old file. Refused with COCKLEDRIFT_PAST_LAST_RECORD and COCKLEDRIFT_BAD_SHEET as an edit is,
   then with COCKLEDRIFT_BUFFER_TOO_SMALL where the longer of the old and the new summary does not fit. */
struct cockledrift_summed cockledrift_summary_update(uint64_t *words, size_t words_lent, uint32_t records, size_t first,
                                                     size_t count, const uint8_t *replacement,
                                                     size_t replacement_bytes) COCKLEDRIFT_LENT;

/* ---- Stepping through a file. A reader is the file, fourteen numbers and the buffer of a label, which the caller
   keeps from one step to the next. Any numbers and any bytes there are safe; to copy them is to copy the reader. */

struct cockledrift_opened {
    uint64_t number;  /* COCKLEDRIFT_DONE, or the refusal's number */
    size_t place;     /* done: the first item's place; refused: the refusal's place */
    uint64_t version; /* done: the file's version; refused: 0 */
};

enum cockledrift_what {
    COCKLEDRIFT_RECORD = 1,  /* an item that makes a record */
    COCKLEDRIFT_NOTHING = 2, /* an item that makes none */
    COCKLEDRIFT_END = 3,     /* the end of the file, at every step from here on */
    COCKLEDRIFT_REFUSED = 4  /* a refusal, at every step from here on; after 11 the item is tried again */
};

struct cockledrift_stepped {
    uint64_t what;   /* an enum cockledrift_what */
    size_t bytes;    /* a record: its bytes, the two length bytes counted; refused: the refusal's place; else 0 */
    size_t kept;     /* a record: the bytes of the label that stayed since the last item with one; else 0 */
    uint64_t number; /* refused: the refusal's number; else 0 */
};

/* Opens a reader: `stand` then says where it stands, and `label` may hold anything. A refused opening gives a reader
   too, whose every step answers that refusal. */
struct cockledrift_opened cockledrift_open(const uint8_t *file, size_t file_bytes,
                                           uint64_t stand[COCKLEDRIFT_STAND_NUMBERS]) COCKLEDRIFT_LENT;

/* One step, over exactly one item. A record: `out` has it at the front, as in a sheet of version 2; else `out` is as it
   was. COCKLEDRIFT_RECORD_LIMIT bytes have room for every record. */
struct cockledrift_stepped cockledrift_step(const uint8_t *file, size_t file_bytes,
                                            uint64_t stand[COCKLEDRIFT_STAND_NUMBERS],
                                            uint8_t label[COCKLEDRIFT_LABEL_LIMIT], uint8_t *out, size_t out_room)
    COCKLEDRIFT_LENT;

/* Steps on to the next record, the end or a refusal: never answers COCKLEDRIFT_NOTHING. */
struct cockledrift_stepped cockledrift_next(const uint8_t *file, size_t file_bytes,
                                            uint64_t stand[COCKLEDRIFT_STAND_NUMBERS],
                                            uint8_t label[COCKLEDRIFT_LABEL_LIMIT], uint8_t *out, size_t out_room)
    COCKLEDRIFT_LENT;

/* ---- SHA-256 (FIPS 180-4): of bytes at once, or start, an update for each part, and finish. The caller keeps nine
   numbers and a block; any numbers and bytes there are safe, and the block may hold anything at the start. */

/* `digest` has the SHA-256 of the bytes. */
void cockledrift_sha256(const uint8_t *bytes, size_t count, uint8_t digest[COCKLEDRIFT_DIGEST]) COCKLEDRIFT_LENT;

void cockledrift_sha256_start(uint64_t running[COCKLEDRIFT_RUNNING_NUMBERS]) COCKLEDRIFT_LENT;

void cockledrift_sha256_update(uint64_t running[COCKLEDRIFT_RUNNING_NUMBERS], uint8_t block[COCKLEDRIFT_BLOCK],
                               const uint8_t *bytes, size_t count) COCKLEDRIFT_LENT;

/* `digest` has the SHA-256 of all bytes so far; more may come after it. */
void cockledrift_sha256_finish(const uint64_t running[COCKLEDRIFT_RUNNING_NUMBERS],
                               const uint8_t block[COCKLEDRIFT_BLOCK], uint8_t digest[COCKLEDRIFT_DIGEST])
    COCKLEDRIFT_LENT;

/* ---- Taking a sheet apart. One version byte (2), then records, the header first: two length bytes, then that many
   bytes, of which the first is the kind. Numbers are big-endian. A label takes what is left of its record.

   header   kind, extended (0 or 1), title's length (2 bytes), title, time line
   leg      kind, flags, style (0-5), date (5), from x y z (12), to x y z (12), label
   station  kind, flags, x y z (12), label
   section  kind, last in passage (0 or 1), date (5), left right up down (16), label
   error    kind, legs, length, error, horizontal, vertical (20)

   A date is its kind (0 none, 1 a day, 2 a range), a day and a last day, two bytes each, from 1 January 1900. Distances
   are centimetres; -1 in a section is one that was left out. Style 5 is "not said". */

enum cockledrift_kind {
    COCKLEDRIFT_KIND_HEADER = 0,
    COCKLEDRIFT_KIND_LEG = 1,
    COCKLEDRIFT_KIND_STATION = 2,
    COCKLEDRIFT_KIND_SECTION = 3,
    COCKLEDRIFT_KIND_ERROR = 4
};

/* The big-endian number in two or four bytes. */
static inline unsigned cockledrift_u16(const uint8_t *at)
{
    return (unsigned)at[0] << 8 | at[1];
}

static inline int32_t cockledrift_i32(const uint8_t *at)
{
    uint32_t bits = (uint32_t)at[0] << 24 | (uint32_t)at[1] << 16 | (uint32_t)at[2] << 8 | at[3];
    return bits < 0x80000000u ? (int32_t)bits : (int32_t)(bits - 0x80000000u) - 0x7fffffff - 1;
}

/* ---- Layouts: a compiler that lays a struct out otherwise than the library stops here. */

#if defined __cplusplus && __cplusplus >= 201103L
#define COCKLEDRIFT_LAYOUT(what) static_assert(what, #what)
#elif defined __STDC_VERSION__ && __STDC_VERSION__ >= 201112L
#define COCKLEDRIFT_LAYOUT(what) _Static_assert(what, #what)
#endif

#ifdef COCKLEDRIFT_LAYOUT
#define COCKLEDRIFT_AT(type, field, place, bytes) \
    COCKLEDRIFT_LAYOUT(offsetof(struct type, field) == (place) && sizeof(((struct type *)0)->field) == (bytes))
COCKLEDRIFT_LAYOUT(sizeof(size_t) == 8 && sizeof(void *) == 8);
COCKLEDRIFT_LAYOUT(sizeof(struct cockledrift_answer) == 32);
COCKLEDRIFT_AT(cockledrift_answer, number, 0, 8);
COCKLEDRIFT_AT(cockledrift_answer, bytes, 8, 8);
COCKLEDRIFT_AT(cockledrift_answer, records, 16, 8);
COCKLEDRIFT_AT(cockledrift_answer, version, 24, 8);
COCKLEDRIFT_LAYOUT(sizeof(struct cockledrift_salvaged) == 56);
COCKLEDRIFT_AT(cockledrift_salvaged, refused, 0, 8);
COCKLEDRIFT_AT(cockledrift_salvaged, bytes, 8, 8);
COCKLEDRIFT_AT(cockledrift_salvaged, records, 16, 8);
COCKLEDRIFT_AT(cockledrift_salvaged, version, 24, 8);
COCKLEDRIFT_AT(cockledrift_salvaged, number, 32, 8);
COCKLEDRIFT_AT(cockledrift_salvaged, place, 40, 8);
COCKLEDRIFT_AT(cockledrift_salvaged, left, 48, 8);
COCKLEDRIFT_LAYOUT(sizeof(struct cockledrift_compared) == 40);
COCKLEDRIFT_AT(cockledrift_compared, which, 0, 8);
COCKLEDRIFT_AT(cockledrift_compared, file, 8, 8);
COCKLEDRIFT_AT(cockledrift_compared, number, 16, 8);
COCKLEDRIFT_AT(cockledrift_compared, place, 24, 8);
COCKLEDRIFT_AT(cockledrift_compared, length, 32, 8);
COCKLEDRIFT_LAYOUT(sizeof(struct cockledrift_reached) == 48);
COCKLEDRIFT_AT(cockledrift_reached, number, 0, 8);
COCKLEDRIFT_AT(cockledrift_reached, place, 8, 8);
COCKLEDRIFT_AT(cockledrift_reached, legs, 16, 8);
COCKLEDRIFT_AT(cockledrift_reached, least_x, 24, 4);
COCKLEDRIFT_AT(cockledrift_reached, least_y, 28, 4);
COCKLEDRIFT_AT(cockledrift_reached, least_z, 32, 4);
COCKLEDRIFT_AT(cockledrift_reached, greatest_x, 36, 4);
COCKLEDRIFT_AT(cockledrift_reached, greatest_y, 40, 4);
COCKLEDRIFT_AT(cockledrift_reached, greatest_z, 44, 4);
COCKLEDRIFT_LAYOUT(sizeof(struct cockledrift_viewed) == 24);
COCKLEDRIFT_AT(cockledrift_viewed, number, 0, 8);
COCKLEDRIFT_AT(cockledrift_viewed, place, 8, 8);
COCKLEDRIFT_AT(cockledrift_viewed, legs, 16, 8);
COCKLEDRIFT_LAYOUT(sizeof(float) == 4);
COCKLEDRIFT_LAYOUT(sizeof(struct cockledrift_summed) == 24);
COCKLEDRIFT_AT(cockledrift_summed, number, 0, 8);
COCKLEDRIFT_AT(cockledrift_summed, place, 8, 8);
COCKLEDRIFT_AT(cockledrift_summed, words, 16, 8);
COCKLEDRIFT_LAYOUT(sizeof(struct cockledrift_stretch) == 40);
COCKLEDRIFT_AT(cockledrift_stretch, number, 0, 8);
COCKLEDRIFT_AT(cockledrift_stretch, place, 8, 8);
COCKLEDRIFT_AT(cockledrift_stretch, count, 16, 8);
COCKLEDRIFT_AT(cockledrift_stretch, found, 24, 8);
COCKLEDRIFT_AT(cockledrift_stretch, next, 32, 8);
COCKLEDRIFT_LAYOUT(sizeof(struct cockledrift_opened) == 24);
COCKLEDRIFT_AT(cockledrift_opened, number, 0, 8);
COCKLEDRIFT_AT(cockledrift_opened, place, 8, 8);
COCKLEDRIFT_AT(cockledrift_opened, version, 16, 8);
COCKLEDRIFT_LAYOUT(sizeof(struct cockledrift_stepped) == 32);
COCKLEDRIFT_AT(cockledrift_stepped, what, 0, 8);
COCKLEDRIFT_AT(cockledrift_stepped, bytes, 8, 8);
COCKLEDRIFT_AT(cockledrift_stepped, kept, 16, 8);
COCKLEDRIFT_AT(cockledrift_stepped, number, 24, 8);
#undef COCKLEDRIFT_AT
#undef COCKLEDRIFT_LAYOUT
#endif

#ifdef __cplusplus
}
#endif

#endif
