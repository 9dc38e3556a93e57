#include <cockledrift.h>
#include <stdio.h>

int main(int words, char **word)
{
    static uint8_t file[1 << 20], sheet[1 << 24], v8[1 << 20], out[1 << 20];
    /* A station: its length, kind and flags; x y z in centimetres, of four bytes each; its name. */
    static const uint8_t station[] = {0, 17, COCKLEDRIFT_KIND_STATION, 4,
                                      0, 0, 0, 100, 0, 0, 0, 0, 0, 0, 0, 0, 'a', '.', '1'};
    FILE *from = words == 3 ? fopen(word[1], "rb") : NULL, *to = words == 3 ? fopen(word[2], "wb") : NULL;
    if (from == NULL || to == NULL)
        return 2;
    size_t bytes = fread(file, 1, sizeof file, from);

    struct cockledrift_answer a = cockledrift_convert(file, bytes, sheet, sizeof sheet, v8, sizeof v8);
    if (a.number == COCKLEDRIFT_DONE) /* two records, from record 0 on, make way for the station */
        a = cockledrift_edit(v8, a.bytes, 0, 2, station, sizeof station, out, sizeof out);
    if (a.number == COCKLEDRIFT_DONE)
        printf("%zu records in %zu bytes\n", a.records, fwrite(out, 1, a.bytes, to));
    else
        printf("refused %d at %zu: %s\n", (int)a.number, a.bytes, cockledrift_message(a.number));
    return fclose(to) != 0 || a.number != COCKLEDRIFT_DONE;
}
