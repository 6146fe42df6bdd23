#include "rows.h"

#include <stdio.h>
#include <stdlib.h>
#include <string.h>

void give_up(const char *why)
{
    fprintf(stderr, "host: %s\n", why);
    exit(2);
}

struct row new_row(size_t length)
{
    struct row row;
    row.length = length;
    row.bytes = malloc(length > 0 ? length : 1);
    if (row.bytes == NULL) {
        give_up("no memory");
    }
    return row;
}

struct row bytes_of(const void *bytes, size_t length)
{
    struct row row = new_row(length);
    memcpy(row.bytes, bytes, length);
    return row;
}

struct row copy_of(struct row row)
{
    return bytes_of(row.bytes, row.length);
}

struct row string(const char *bytes)
{
    return bytes_of(bytes, strlen(bytes));
}

struct row repeated(size_t times, const void *piece, size_t length)
{
    struct row row = new_row(times * length);
    size_t turn;
    for (turn = 0; turn < times; turn++) {
        memcpy(row.bytes + turn * length, piece, length);
    }
    return row;
}

static unsigned char *put(unsigned char *at, size_t times, const char *piece)
{
    size_t turn;
    for (turn = 0; turn < times; turn++) {
        memcpy(at, piece, strlen(piece));
        at += strlen(piece);
    }
    return at;
}

struct row wrapped(size_t times, const char *piece, const char *inner, const char *after)
{
    struct row row = new_row(times * (strlen(piece) + strlen(after)) + strlen(inner));
    put(put(put(row.bytes, times, piece), 1, inner), times, after);
    return row;
}

int is_same(struct row one, struct row other)
{
    return one.length == other.length && memcmp(one.bytes, other.bytes, one.length) == 0;
}

void free_row(struct row row)
{
    free(row.bytes);
}

void replace_row(struct row *row, struct row other)
{
    free_row(*row);
    *row = other;
}

int read_number(size_t bytes, size_t *number)
{
    unsigned char got[8];
    size_t at, count = fread(got, 1, bytes, stdin);
    if (count == 0) {
        return 0;
    }
    if (count != bytes) {
        give_up("the batch breaks off in a number");
    }
    *number = 0;
    for (at = bytes; at > 0; at--) {
        *number = *number << 8 | got[at - 1];
    }
    return 1;
}

struct row read_row(size_t size)
{
    struct row row;
    size_t count;
    if (!read_number(4, &count)) {
        give_up("the batch breaks off before a row");
    }
    row = new_row(count * size);
    if (fread(row.bytes, 1, row.length, stdin) != row.length) {
        give_up("the batch breaks off in a row");
    }
    return row;
}

void end_batch(void)
{
    if (ferror(stdin) || fflush(stdout) != 0) {
        give_up("input or output failed");
    }
}
