/* The calls held to fixed cases. */
#ifndef FIXED_H
#define FIXED_H

#include "calls.h"
#include "dimmhalt.h"

/* Holds all calls to their fixed cases. Answers the exit status. */
int run_fixed(void);

/* The cases of each call. */
void hold_verdicts(void);
void hold_first_trees(void);
void hold_reads(void);
void hold_turns(void);
void hold_sheets(void);
void hold_refused_sheets(void);

/* What is not a pattern, and how many of its bytes still begin one. */
struct mistake {
    const char *bytes;
    size_t place;
};
#define MISTAKES 9
extern const struct mistake mistakes[MISTAKES];

/* Rows to lend, of so many pieces: nothing in them is zero or comes out of a call, and no two cells or figures are the same. */
struct row dirty_cells(size_t count);
struct row dirty_room(size_t count);
struct row dirty_table(size_t count);
struct row dirty_sheet(size_t count);
struct row dirty_out(size_t count);

/* The same with figures at the front, as many as there is room for. */
struct row out_with(size_t count, const uint64_t *figures, size_t named);

/* The tree of the letter a under marks 1 to 64. */
struct row under_64_marks(void);

/* Holds a call to its number and to all that it leaves in what is lent. Frees both. */
void hold(const char *what, struct asked asked, struct left wanted);

#endif
