/* What all verbs share: exit statuses, rows of bytes, errors in one line, colour, and standard streams that are looked after. */
#ifndef SHARED_H
#define SHARED_H

#include <argp.h>
#include <stddef.h>
#include <stdint.h>

#define STATUS_ONE_TREE 0
#define STATUS_ALL_FIT 0 /* of a night */
#define STATUS_SEVERAL_TREES 1
#define STATUS_NO_TREE 2
#define STATUS_PATTERN_REFUSED 3
#define STATUS_REPORT_REFUSED 4
#define STATUS_MARK_REFUSED 5
#define STATUS_WRONG_CALL 64
#define STATUS_INTERNAL 70
#define STATUS_INPUT_OUTPUT 74

/* Any bytes: no byte ends them. */
struct bytes {
    const uint8_t *first;
    size_t length;
};

/*
 * Ends the program with a line on standard error: `dimmhalt: SUBJECT: WHAT`. The subject may hold any bytes; what is said of it is a format of
 * printf, for what follows it.
 */
void stop(int status, const char *subject, const char *what, ...) __attribute__((noreturn, format(printf, 3, 4)));

/* Ends the program because a call answered what it never answers here: its number, and figures that have these names, at least one. */
void stop_at_answer(const char *call, uint64_t number, const char *const *names, const uint64_t *figures, size_t count)
    __attribute__((noreturn));

/* Looks after the standard streams, before anything else is done; output that cannot be written changes the exit status. */
void prepare_streams(void);

/* Parses words as argp does: a wrong call ends the program, and so does a want of memory. */
void parse_call(const struct argp *argp, unsigned flags, int count, char **words, void *input);

enum paint { PLAIN, DIM, GREEN, YELLOW, RED };

/* What switches to a paint, or nothing where no colour is wanted. */
const char *switch_to(enum paint paint);

#endif
