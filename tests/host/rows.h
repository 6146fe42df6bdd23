/* Rows of bytes for the C programs under test: each in a block of just its length, so that a reader past the end leaves the block. */
#ifndef ROWS_H
#define ROWS_H

#include <stddef.h>

struct row {
    unsigned char *bytes;
    size_t length;
};

/* Ends the program with status 2. */
void give_up(const char *why);

/* A block of `length` bytes; of one byte where there is nothing to hold, since the calls want pointers that are not null. */
struct row new_row(size_t length);
struct row bytes_of(const void *bytes, size_t length);
struct row copy_of(struct row row);
struct row string(const char *bytes);
/* So many times a piece of so many bytes. */
struct row repeated(size_t times, const void *piece, size_t length);
/* `times` of `piece`, then `inner`, then `times` of `after`. */
struct row wrapped(size_t times, const char *piece, const char *inner, const char *after);
int is_same(struct row one, struct row other);
void free_row(struct row row);
/* Puts another row into the place of one, which it frees. */
void replace_row(struct row *row, struct row other);

/* Reads a number in so many bytes of standard input, the lowest first. Answers 0 where the input has ended before it. */
int read_number(size_t bytes, size_t *number);
/* Reads a length in four bytes and so many pieces of `size` bytes each. */
struct row read_row(size_t size);

/* Ends the program if input or output failed. */
void end_batch(void);

#endif
