/* Last night's turns, one number for each mark, from a list or from a sheet. */
#ifndef LAST_H
#define LAST_H

#include <stddef.h>
#include <stdint.h>

#include "numbers.h"
#include "shared.h"

#define LAST_HELP                                                                                                                       \
    "The file of --last says how many turns of each mark read text last night. It is a list, with one number a line for each mark in "   \
    "turn, or a whole sheet of last night, as --raw printed it. A file with as many lines as PATTERN has marks, none of them with + or " \
    "- in front, is a list; any other is a sheet. No file can be both, since a sheet of PATTERN has more lines than PATTERN has marks. " \
    "An empty file is a list, and right where PATTERN has no marks. Behind each number is a line end, behind the last too."

struct last {
    const char *name; /* of the file, as messages say it */
    uint64_t turns[NUMBERS_MOST];
    size_t count;
    size_t line, step;    /* where the first number stands, and how many lines on the next */
    size_t no_sheet_from; /* the line from which on a list is no sheet; 0 of a sheet */
};

/* Takes the turns out of a file, for a pattern with so many marks. A file that is neither a list nor a sheet ends the program. */
void take_last(struct last *last, const char *name, struct bytes bytes, size_t marks);

/* Which number is the first over the limit, counted from 0; their count, if none is. */
size_t find_too_large(const struct last *last);

/* Ends the program because there is not one number for each mark, and because one is over the limit. */
void stop_at_count(const struct last *last, size_t marks) __attribute__((noreturn));
void stop_at_too_large(const struct last *last) __attribute__((noreturn));

#endif
