#include <cockledrift.h>
#include <stdio.h>

int main(int words, char **word)
{
    static uint8_t file[1 << 20], label[COCKLEDRIFT_LABEL_LIMIT], record[COCKLEDRIFT_RECORD_LIMIT];
    FILE *from = words == 2 ? fopen(word[1], "rb") : NULL;
    if (from == NULL)
        return 2;
    size_t bytes = fread(file, 1, sizeof file, from);
    fclose(from);

    uint64_t stand[COCKLEDRIFT_STAND_NUMBERS];
    struct cockledrift_stepped s;
    cockledrift_open(file, bytes, stand);
    while ((s = cockledrift_next(file, bytes, stand, label, record, sizeof record)).what == COCKLEDRIFT_RECORD)
        if (record[2] == COCKLEDRIFT_KIND_STATION)
            printf("%.*s at %d %d %d\n", (int)(s.bytes - 16), (char *)record + 16, cockledrift_i32(record + 4),
                   cockledrift_i32(record + 8), cockledrift_i32(record + 12));
    if (s.what == COCKLEDRIFT_REFUSED)
        printf("refused %d at %zu: %s\n", (int)s.number, s.bytes, cockledrift_message(s.number));
    return s.what == COCKLEDRIFT_REFUSED;
}
