/* The calls of dimmhalt.h, as the tests make them: all of them in one form. */
#ifndef CALLS_H
#define CALLS_H

#include "rows.h"

#include <stdint.h>

enum call { VERDICT = 1, FIRST_TREE = 2, READ = 3, TURNS = 4, NIGHT = 5 };

/* What is only read: the bytes of the pattern and of the text, a row of tokens; the bytes of all reports, their lengths and last night's turns. */
enum input { PATTERN, TEXT, ROW, REPORTS, LENGTHS, LAST, INPUTS };

/* What is lent to write. */
enum lent { CELLS, TREE, TABLE, SHEET, OUT, LENT };

/* How many bytes one piece of them has. */
extern const size_t input_sizes[INPUTS];
extern const size_t lent_sizes[LENT];

/* Whether a call takes them. */
int takes_input(enum call call, enum input which);
int takes_lent(enum call call, enum lent which);

/* What is asked of a call, with what the lent rows hold before it. A row that the call does not take is empty. */
struct asked {
    enum call call;
    struct row inputs[INPUTS];
    uint64_t mark;
    struct row lent[LENT];
};

/* A case with nothing in it. */
struct asked nothing_asked(enum call call);
void free_asked(struct asked asked);

/* What should have stayed as it was and did not, as a sum. */
enum { ALL_STANDS = 0, GUARD_FELL = 1, INPUT_CHANGED = 2, OTHERWISE_AGAIN = 4 };

/* What came out of a call. */
struct left {
    uint32_t number;
    unsigned int fell;
    struct row lent[LENT];
};

/* Calls with guards around what is lent, which differ with `number`; if they stand, once more with lent blocks of just their length. */
struct left call(const struct asked *asked, unsigned long number);
void free_left(struct left left);

/* A number, and nothing in what is lent. */
struct left nothing_left(uint32_t number);

#endif
