/* Decimal numbers with a line end behind each, as a list of turns and a sheet are written; and the form of a sheet. */
#ifndef NUMBERS_H
#define NUMBERS_H

#include <stddef.h>
#include <stdint.h>

#include "dimmhalt.h"
#include "shared.h"

#define NUMBERS_MOST (DIMMHALT_SHEET_BYTES / 2) /* a number has a digit and a line end at least */

struct number {
    char sign; /* + or -, or 0 where it has none */
    uint64_t size;
};

struct numbers {
    size_t count;
    struct number of[NUMBERS_MOST];
};

/*
 * Takes the numbers of at most DIMMHALT_SHEET_BYTES bytes up to the first line that is none, and says how many bytes they have. A number
 * that 64 bits do not hold is taken as the largest that they hold.
 */
size_t take_numbers(struct numbers *numbers, struct bytes bytes);

/* How many reports and marks a sheet has. Where its numbers stand, counted from 0, follows from it. */
struct form {
    size_t reports, marks;
};

/* Whether numbers are a whole sheet. If not, `wrong` is the place of the first that cannot stand there, or of the first that is missing. */
int take_form(struct form *form, const struct numbers *numbers, size_t *wrong);

/* Where the number of a report stands, the first of the three of a mark, and the change of a mark, all counted from 0. */
size_t place_of_report(size_t report);
size_t place_of_record(const struct form *form, size_t mark);
size_t place_of_change(const struct form *form, size_t mark);

#endif
