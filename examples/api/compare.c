#include <cockledrift.h>
#include <stdio.h>

static size_t load(const char *name, uint8_t *file, size_t room)
{
    FILE *from = fopen(name, "rb");
    size_t bytes = from == NULL ? 0 : fread(file, 1, room, from);
    if (from != NULL)
        fclose(from);
    return bytes;
}

int main(int words, char **word)
{
    static uint8_t one[1 << 20], two[1 << 20];
    if (words != 3)
        return 2;
    size_t one_bytes = load(word[1], one, sizeof one), two_bytes = load(word[2], two, sizeof two);
    struct cockledrift_compared c = cockledrift_compare(one, one_bytes, two, two_bytes);
    if (c.which == COCKLEDRIFT_SAME)
        puts("the same second");
    else if (c.which == COCKLEDRIFT_NEITHER)
        printf("file %d: refused %d at %zu: %s\n", (int)c.file, (int)c.number, c.place, cockledrift_message(c.number));
    else
        printf("file %d: %.*s\n", (int)c.which, (int)c.length,
               (char *)(c.which == COCKLEDRIFT_FIRST ? one : two) + c.place);
    return c.which == COCKLEDRIFT_NEITHER;
}
