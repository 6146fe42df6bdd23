/* The pattern that a verb is called with: a file, or -e and the pattern itself; and what dimmhalt_read says of it. */
#ifndef PATTERN_H
#define PATTERN_H

#include <argp.h>

#include "dimmhalt.h"
#include "shared.h"

#define PATTERN_KEY 'e'
#define PATTERN_OPTION {NULL, PATTERN_KEY, "PATTERN", 0, "take PATTERN itself, and no file of it", 0}

/* Takes the word of -e into `itself`, which is null before. */
void take_pattern_itself(const char **itself, const char *word, struct argp_state *state);

/*
 * The bytes of the pattern itself, or, where that is null, of a file. Of one that is too long it reads one byte more than the limit, so that
 * the calls see it and refuse.
 */
struct bytes read_pattern(const char *itself, const char *file);

/* The answer of dimmhalt_read: its number, and value, positions and marks. */
struct reading {
    uint32_t number;
    uint64_t figures[DIMMHALT_READ_FIGURES];
};
#define READ_VALUE 0
#define READ_POSITIONS 1
#define READ_MARKS 2

/* Asks for the reading of a pattern. An answer that cannot be ends the program. */
struct reading ask_reading(struct bytes pattern);

/* Ends the program because of a reading that cannot be. */
void stop_at_reading(const struct reading *reading) __attribute__((noreturn));

#endif
