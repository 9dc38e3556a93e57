/* Makes the calls of the header that standard input asks for, and prints what they answer.

   A request is eight numbers of eight bytes (the call's letter, the bytes of two inputs, the room of two buffers, first
   and count of an edit, the records of a summary) and the inputs' bytes. The answer is a line: the letter, the numbers answered, and a
   hash of each buffer as it then is. Each call is made twice, with all that is lent to it against the guard page behind
   and against the one before; both have to come to the same. */
#define _DEFAULT_SOURCE
#define main list_main
#include "../../../examples/list.c"
#undef main
#include <string.h>
#include <sys/mman.h>

enum { PAGE = 4096, AROUND = 64, LINE = 400 };
static const size_t ARENA = (size_t)48 << 20; /* 48 MiB, which the system gives as it is touched */

static void stop(const char *what)
{
    fprintf(stderr, "calls: %s\n", what);
    exit(3);
}

/* ---- memory between guard pages */

struct lent {
    uint8_t *arena, *start;
    size_t room, bytes;
};

static struct lent between_guards(size_t room)
{
    uint8_t *all = (uint8_t *)mmap(NULL, room + 2 * PAGE, PROT_NONE, MAP_PRIVATE | MAP_ANONYMOUS, -1, 0);
    if (all == MAP_FAILED || mprotect(all + PAGE, room, PROT_READ | PROT_WRITE) != 0)
        stop("no memory between guard pages");
    return (struct lent){all + PAGE, all + PAGE, room, 0};
}

/* A byte that depends on its place, so that moved bytes show too. */
static uint8_t pattern(size_t place)
{
    return (uint8_t)(place * 151 + place / 256 + 77);
}

/* The bytes on the side that has no guard page. */
static uint8_t *beside(const struct lent *l, int behind)
{
    return behind ? l->start - AROUND : l->start + l->bytes;
}

static uint8_t *lend(struct lent *l, size_t bytes, int behind)
{
    if (bytes + AROUND > l->room)
        stop("no room between the guard pages");
    l->bytes = bytes;
    l->start = behind ? l->arena + l->room - bytes : l->arena;
    for (size_t i = 0; i < bytes; i++)
        l->start[i] = pattern(i);
    memset(beside(l, behind), 0xa5, AROUND);
    return l->start;
}

static const uint8_t *lend_input(struct lent *l, const uint8_t *input, size_t bytes, int behind)
{
    return (const uint8_t *)memcpy(lend(l, bytes, behind), input, bytes);
}

static void check(const struct lent *l, int behind)
{
    const uint8_t *at = beside(l, behind);
    for (size_t i = 0; i < AROUND; i++)
        if (at[i] != 0xa5)
            stop("a byte beside a lent buffer was written");
}

static void check_input(const struct lent *l, const uint8_t *input, int behind)
{
    check(l, behind);
    if (memcmp(l->start, input, l->bytes) != 0)
        stop("a byte that was lent to be read was written");
}

static uint64_t hash(uint64_t h, const void *bytes, size_t count)
{
    const uint8_t *at = (const uint8_t *)bytes;
    for (size_t i = 0; i < count; i++)
        h = (h ^ at[i]) * 0x100000001b3u;
    return h;
}

/* ---- the calls */

static const uint64_t START = 0xcbf29ce484222325u;

struct request {
    uint64_t letter, a_bytes, b_bytes, room, second_room, first, count, records;
};

static struct lent in_a, in_b, out, second, numbers, label;

static void say_answer(char *line, struct cockledrift_answer a)
{
    snprintf(line, LINE, "%" PRIu64 " %zu %zu %" PRIu64 " %016" PRIx64 " %016" PRIx64, a.number, a.bytes, a.records,
             a.version, hash(START, out.start, out.bytes), hash(START, second.start, second.bytes));
}

static void say_salvaged(char *line, struct cockledrift_salvaged s)
{
    int said = snprintf(line, LINE, "%" PRIu64 " %zu %zu %" PRIu64, s.refused, s.bytes, s.records, s.version);
    snprintf(line + said, LINE - said, " %" PRIu64 " %zu %zu %016" PRIx64, s.number, s.place, s.left,
             hash(START, out.start, out.bytes));
}

typedef struct cockledrift_stepped stepper(const uint8_t *, size_t, uint64_t *, uint8_t *, uint8_t *, size_t);

/* Steps to the end or a refusal, and once more. */
static void say_steps(char *line, stepper *step, const uint8_t *file, size_t bytes)
{
    uint64_t *stand = (uint64_t *)(void *)numbers.start, h = START, steps = 0;
    memset(label.start, 0, label.bytes);
    struct cockledrift_opened o = cockledrift_open(file, bytes, stand);
    h = hash(h, stand, numbers.bytes);
    struct cockledrift_stepped s;
    for (int ends = 0; ends < 2; steps++) {
        s = step(file, bytes, stand, label.start, out.start, out.bytes);
        h = hash(h, &s, sizeof s);
        h = hash(h, out.start, out.bytes < 64 ? out.bytes : 64);
        ends += s.what == COCKLEDRIFT_END || s.what == COCKLEDRIFT_REFUSED;
    }
    h = hash(h, stand, numbers.bytes);
    int said = snprintf(line, LINE, "%" PRIu64 " %zu %" PRIu64 " %" PRIu64, o.number, o.place, o.version, steps);
    snprintf(line + said, LINE - said, " %" PRIu64 " %zu %" PRIu64 " %016" PRIx64 " %016" PRIx64, s.what, s.bytes,
             s.number, h, hash(START, out.start, out.bytes));
}

/* Two steps of a reader that stands wherever these numbers and a label of any bytes say. */
static void say_anywhere(char *line, const uint8_t *file, size_t bytes, const uint8_t *at, size_t at_bytes)
{
    uint64_t *stand = (uint64_t *)(void *)numbers.start, h = START;
    if (at_bytes != numbers.bytes)
        stop("no stand");
    memcpy(stand, at, at_bytes);
    for (size_t i = 0; i < label.bytes; i++)
        label.start[i] = pattern(i);
    struct cockledrift_stepped s = cockledrift_step(file, bytes, stand, label.start, out.start, out.bytes);
    h = hash(hash(h, stand, numbers.bytes), label.start, label.bytes);
    h = hash(h, out.start, out.bytes);
    struct cockledrift_stepped t = cockledrift_next(file, bytes, stand, label.start, out.start, out.bytes);
    h = hash(hash(h, stand, numbers.bytes), label.start, label.bytes);
    int said = snprintf(line, LINE, "%" PRIu64 " %zu %zu %" PRIu64, s.what, s.bytes, s.kept, s.number);
    snprintf(line + said, LINE - said, " %" PRIu64 " %zu %zu %" PRIu64 " %016" PRIx64, t.what, t.bytes, t.kept,
             t.number, hash(h, out.start, out.bytes));
}

/* The digest of `bytes`, whole and cut after `first` of them. */
static void say_digest(char *line, const uint8_t *bytes, size_t count, size_t first)
{
    uint64_t *running = (uint64_t *)(void *)numbers.start;
    cockledrift_sha256(bytes, count, out.start);
    uint64_t whole = hash(START, out.start, out.bytes);
    cockledrift_sha256_start(running);
    cockledrift_sha256_update(running, second.start, bytes, first);
    cockledrift_sha256_update(running, second.start, bytes + first, count - first);
    cockledrift_sha256_finish(running, second.start, out.start);
    snprintf(line, LINE, "%016" PRIx64 " %016" PRIx64 " %016" PRIx64, whole, hash(START, out.start, out.bytes),
             hash(START, running, COCKLEDRIFT_RUNNING_NUMBERS * sizeof *running));
}

static void say_list(char *line, const uint8_t *file, size_t bytes)
{
    char *text = NULL;
    size_t length = 0;
    FILE *to = open_memstream(&text, &length);
    if (to == NULL)
        stop("no memory for a listing");
    struct cockledrift_answer a = list(to, file, bytes, out.start, out.bytes);
    fclose(to);
    snprintf(line, LINE, "%" PRIu64 " %zu %016" PRIx64, a.number, a.bytes, hash(START, text, length));
    free(text);
}

static void say_compared(char *line, struct cockledrift_compared c)
{
    snprintf(line, LINE, "%" PRIu64 " %" PRIu64 " %" PRIu64 " %zu %zu", c.which, c.file, c.number, c.place, c.length);
}

static void say_reached(char *line, struct cockledrift_reached c)
{
    int said = snprintf(line, LINE, "%" PRIu64 " %zu %zu", c.number, c.place, c.legs);
    said += snprintf(line + said, LINE - said, " %d %d %d", c.least_x, c.least_y, c.least_z);
    snprintf(line + said, LINE - said, " %d %d %d", c.greatest_x, c.greatest_y, c.greatest_z);
}

/* The legs of a sheet, less the origin that three numbers of four bytes say. */
static void say_viewed(char *line, const uint8_t *sheet, size_t bytes, const uint8_t *at, size_t at_bytes)
{
    int32_t origin[3];
    if (at_bytes != sizeof origin)
        stop("no origin");
    memcpy(origin, at, sizeof origin);
    float *to = (float *)(void *)out.start;
    struct cockledrift_viewed v =
        cockledrift_viewer_legs(sheet, bytes, origin[0], origin[1], origin[2], to, out.bytes / sizeof *to);
    snprintf(line, LINE, "%" PRIu64 " %zu %zu %016" PRIx64, v.number, v.place, v.legs,
             hash(START, out.start, out.bytes));
}

static void say_summed(char *line, struct cockledrift_summed s)
{
    snprintf(line, LINE, "%" PRIu64 " %zu %zu %016" PRIx64, s.number, s.place, s.words,
             hash(START, out.start, out.bytes));
}

static void say_stretch(char *line, struct cockledrift_stretch s)
{
    snprintf(line, LINE, "%" PRIu64 " %zu %" PRIu64 " %" PRIu64 " %zu", s.number, s.place, s.count, s.found, s.next);
}

/* Brings the words of `a` up to date, with room for more behind them. */
static void say_update(char *line, const struct request *r, const uint8_t *a, const uint8_t *b)
{
    uint64_t *words = (uint64_t *)(void *)out.start;
    memcpy(words, a, r->a_bytes < out.bytes ? r->a_bytes : out.bytes);
    say_summed(line, cockledrift_summary_update(words, out.bytes / 8, (uint32_t)r->records, r->first, r->count, b,
                                                r->b_bytes));
}

/* Makes the call with `a` and `b` to read, and `out` and `second` to fill. */
static void call(char *line, const struct request *r, const uint8_t *a, const uint8_t *b)
{
    size_t n = r->a_bytes, m = r->b_bytes, room = out.bytes;
    uint8_t *to = out.start;
    switch (r->letter) {
    case 'r': say_answer(line, cockledrift_read(a, n, to, room)); break;
    case 'v': say_salvaged(line, cockledrift_salvage(a, n, to, room)); break;
    case 'i':
        say_answer(line, cockledrift_read_strict(a, n, to, room, second.start, second.bytes, r->first));
        break;
    case 'w': say_answer(line, cockledrift_write(a, n, to, room)); break;
    case '7': say_answer(line, cockledrift_write_v7(a, n, to, room)); break;
    case 'c': say_answer(line, cockledrift_convert(a, n, to, room, second.start, second.bytes)); break;
    case 'e': say_answer(line, cockledrift_edit(a, n, r->first, r->count, b, m, to, room)); break;
    case 'l': say_compared(line, cockledrift_compare(a, n, b, m)); break;
    case 'x': say_reached(line, cockledrift_reach(a, n, b, m)); break;
    case 'g': say_viewed(line, a, n, b, m); break;
    case 'y': say_summed(line, cockledrift_summary(a, n, (uint64_t *)(void *)to, room / 8)); break;
    case 'q':
        say_stretch(line, cockledrift_entrances((const uint64_t *)(const void *)a, n / 8, (uint32_t)r->records,
                                                r->first, r->count));
        break;
    case 'u': say_update(line, r, a, b); break;
    case 's': say_steps(line, cockledrift_step, a, n); break;
    case 'n': say_steps(line, cockledrift_next, a, n); break;
    case 'a': say_anywhere(line, a, n, b, m); break;
    case 'p': say_list(line, a, n); break;
    case 'd': say_digest(line, a, n, r->first); break;
    case 'm': snprintf(line, LINE, "%s", cockledrift_message(r->first)); break;
    /* What no call may do: a byte past a buffer, or before it, and shifting by too much. */
    case '>': to[room] = 1; break;
    case '<': to[-1] = 1; break;
    case '?': snprintf(line, LINE, "%d", 1 << r->first); break;
    default: stop("no such call");
    }
}

static void called(char *line, const struct request *r, const uint8_t *a, const uint8_t *b, int behind)
{
    const uint8_t *lent_a = lend_input(&in_a, a, r->a_bytes, behind);
    const uint8_t *lent_b = lend_input(&in_b, b, r->b_bytes, behind);
    lend(&out, r->room, behind);
    lend(&second, r->second_room, behind);
    lend(&numbers, COCKLEDRIFT_STAND_NUMBERS * sizeof(uint64_t), behind);
    label.start = label.arena; /* just a page: between two guard pages */
    label.bytes = COCKLEDRIFT_LABEL_LIMIT;
    call(line, r, lent_a, lent_b);
    check_input(&in_a, a, behind);
    check_input(&in_b, b, behind);
    check(&out, behind);
    check(&second, behind);
    check(&numbers, behind);
}

static void take(void *to, size_t bytes)
{
    if (fread(to, 1, bytes, stdin) != bytes)
        stop("a request is cut short");
}

int main(void)
{
    in_a = between_guards(ARENA), in_b = between_guards(ARENA);
    out = between_guards(ARENA), second = between_guards(ARENA);
    numbers = between_guards(PAGE), label = between_guards(COCKLEDRIFT_LABEL_LIMIT);
    uint8_t *a = (uint8_t *)malloc(ARENA), *b = (uint8_t *)malloc(ARENA);
    struct request r;
    while (fread(&r, sizeof r, 1, stdin) == 1) {
        char one[LINE] = "", other[LINE] = "";
        if (a == NULL || b == NULL || r.a_bytes > ARENA || r.b_bytes > ARENA)
            stop("a request is too long");
        take(a, r.a_bytes);
        take(b, r.b_bytes);
        called(one, &r, a, b, 0);
        called(other, &r, a, b, 1);
        if (strcmp(one, other) != 0)
            stop("the same call answers differently");
        printf("%c %s\n", (char)r.letter, one);
    }
    free(a);
    free(b);
    return 0;
}
