#include "words.h"

#include "dimmhalt.h"

#include <stdlib.h>
#include <string.h>

/* The number at the start of some words, and where the next one starts. */
static unsigned long long number_of(const char *word, const char **next)
{
    char *behind;
    unsigned long long number = strtoull(word, &behind, 10);
    if (behind == word) {
        give_up("no number");
    }
    *next = behind + strspn(behind, " ");
    return number;
}

static uint16_t token_of(const char *word, const char **next)
{
    const unsigned long long from = *word == 'b' ? DIMMHALT_BYTE(0) : *word == 'c' ? DIMMHALT_CLOSES(0) : 0;
    unsigned long long token = from + number_of(strchr("ocb", *word) != NULL ? word + 1 : word, next);
    if (token > UINT16_MAX) {
        give_up("no token");
    }
    return (uint16_t)token;
}

/* The same row in a block of just its length. Frees the row. */
static struct row without_rest(struct row row)
{
    struct row same = copy_of(row);
    free_row(row);
    return same;
}

/* It has no more tokens than the words have letters. */
struct row row_of(const char *words)
{
    struct row row = new_row(strlen(words) * sizeof(uint16_t));
    row.length = 0;
    while (*words != '\0') {
        uint16_t token = token_of(words, &words);
        memcpy(row.bytes + row.length, &token, sizeof token);
        row.length += sizeof token;
    }
    return without_rest(row);
}

struct row numbers_of(const char *words)
{
    struct row row = new_row(strlen(words) * sizeof(uint64_t));
    row.length = 0;
    while (*words != '\0') {
        uint64_t number = number_of(words, &words);
        memcpy(row.bytes + row.length, &number, sizeof number);
        row.length += sizeof number;
    }
    return without_rest(row);
}

struct row lines_of(const char *words)
{
    struct row row = bytes_of(words, strlen(words) + 1);
    size_t at;
    for (at = 0; at < row.length; at++) {
        if (row.bytes[at] == ' ' || row.bytes[at] == '\0') {
            row.bytes[at] = '\n';
        }
    }
    return row;
}
