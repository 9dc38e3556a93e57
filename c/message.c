/* What each number says: the words are the header's. */
#include "cockledrift.h"

const char *cockledrift_message(uint64_t number)
{
    switch (number) {
#define WORDS(name, number, words) \
    case name: \
        return words;
        COCKLEDRIFT_NUMBERS(WORDS)
#undef WORDS
    default:
        return "no such number";
    }
}
