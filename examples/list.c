/* Lists a 3d file: a line for its header, one for each record, and how many there are.

       cc list.c $(pkg-config --cflags --libs cockledrift) -o list && ./list survey.3d

   Bytes of text outside 33 to 126, and `%`, are printed as `%` and two hex digits, empty text as `-` and the text `-`
   as `%2d`, so that a line always has the same fields. */
#include <cockledrift.h>
#include <inttypes.h>
#include <stdio.h>
#include <stdlib.h>

/* A space and these bytes. */
static void put_text(FILE *to, const uint8_t *text, size_t bytes)
{
    fputc(' ', to);
    if (bytes == 0)
        fputc('-', to);
    for (size_t i = 0; i < bytes; i++)
        if (text[i] < 33 || text[i] > 126 || text[i] == '%' || (bytes == 1 && text[i] == '-'))
            fprintf(to, "%%%02x", text[i]);
        else
            fputc(text[i], to);
}

/* A space and a number, for each of so many. */
static void put_numbers(FILE *to, const uint8_t *at, size_t count)
{
    for (size_t i = 0; i < count; i++)
        fprintf(to, " %" PRId32, cockledrift_i32(at + 4 * i));
}

static void put_date(FILE *to, const uint8_t *date)
{
    unsigned day = cockledrift_u16(date + 1), last = cockledrift_u16(date + 3);
    if (date[0] == 0)
        fputs(" none", to);
    else if (date[0] == 1)
        fprintf(to, " %u", day);
    else
        fprintf(to, " %u-%u", day, last);
}

/* The line of a record of `bytes` bytes, its length bytes not counted. */
static void put_record(FILE *to, const uint8_t *record, size_t bytes)
{
    switch (record[0]) {
    case COCKLEDRIFT_KIND_LEG:
        fprintf(to, "leg %d %d", record[1], record[2]);
        put_date(to, record + 3);
        put_numbers(to, record + 8, 6);
        put_text(to, record + 32, bytes - 32);
        break;
    case COCKLEDRIFT_KIND_STATION:
        fprintf(to, "station %d", record[1]);
        put_numbers(to, record + 2, 3);
        put_text(to, record + 14, bytes - 14);
        break;
    case COCKLEDRIFT_KIND_SECTION:
        fprintf(to, "xsect %d", record[1]);
        put_date(to, record + 2);
        put_numbers(to, record + 7, 4);
        put_text(to, record + 23, bytes - 23);
        break;
    default:
        fputs("error", to);
        put_numbers(to, record + 1, 5);
    }
    fputc('\n', to);
}

static void put_header(FILE *to, uint64_t version, const uint8_t *header, size_t bytes)
{
    size_t title = cockledrift_u16(header + 2);
    fprintf(to, "version %" PRIu64 " title", version);
    put_text(to, header + 4, title);
    fputs(" time", to);
    put_text(to, header + 4 + title, bytes - 4 - title);
    fprintf(to, " extended %d\n", header[1]);
}

/* Lists the file to `to`, with `sheet` to work in. */
static struct cockledrift_answer list(FILE *to, const uint8_t *file, size_t file_bytes, uint8_t *sheet, size_t room)
{
    struct cockledrift_answer a = cockledrift_read(file, file_bytes, sheet, room);
    if (a.number != COCKLEDRIFT_DONE)
        return a;
    for (size_t at = 1; at < a.bytes; at += 2 + cockledrift_u16(sheet + at)) {
        size_t bytes = cockledrift_u16(sheet + at);
        if (sheet[at + 2] == COCKLEDRIFT_KIND_HEADER)
            put_header(to, a.version, sheet + at + 2, bytes);
        else
            put_record(to, sheet + at + 2, bytes);
    }
    fprintf(to, "end %zu\n", a.records);
    return a;
}

/* Reads up to one byte more than a 3d file may have, so that a longer one is refused. */
static size_t load(const char *name, uint8_t *file)
{
    FILE *from = fopen(name, "rb");
    if (from == NULL) {
        perror(name);
        exit(2);
    }
    size_t bytes = fread(file, 1, COCKLEDRIFT_FILE_LIMIT + 1, from);
    fclose(from);
    return bytes;
}

int main(int words, char **word)
{
    if (words != 2) {
        fputs("list FILE\n", stderr);
        return 2;
    }
    uint8_t *file = (uint8_t *)malloc(COCKLEDRIFT_FILE_LIMIT + 1);
    if (file == NULL)
        return 2;
    size_t bytes = load(word[1], file);

    /* Lent no bytes, reading says how many it needs, or what is wrong. */
    uint8_t none[1];
    struct cockledrift_answer a = cockledrift_read(file, bytes, none, 0);
    if (a.number == COCKLEDRIFT_BUFFER_TOO_SMALL) {
        uint8_t *sheet = (uint8_t *)malloc(a.bytes);
        if (sheet == NULL)
            return 2;
        a = list(stdout, file, bytes, sheet, a.bytes);
        free(sheet);
    }
    if (a.number != COCKLEDRIFT_DONE)
        printf("refused %" PRIu64 " at %zu: %s\n", a.number, a.bytes, cockledrift_message(a.number));
    free(file);
    return a.number != COCKLEDRIFT_DONE;
}
