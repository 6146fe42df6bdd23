/*
 * A C program that makes the calls, as a test.
 *
 *     host --fixed                          holds the calls to fixed cases
 *     host [--lines] [--stack KB] < batch   makes the call of each case of a batch and writes what came out of it; with --stack, in a thread
 *                                           that has so much
 *
 * Every number has its lowest byte first, as in the memory of the machines that this runs on; a row is its length in four bytes, and its
 * pieces. A case is one byte, and then what the call takes:
 *     1, the verdict: the pattern and the text, in bytes
 *     2, the first tree: the same; the cells, in 8 bytes each; the tree room, in 2 bytes a token; `out`, in 8 bytes a figure
 *     3, the reading of a pattern: the pattern; `out`
 *     4, the turn count: the row, in 2 bytes a token; the mark, in 8 bytes; `out`
 *     5, the night sheet: the pattern; the bytes of all reports; their lengths and last night's turns, in 8 bytes each; the cells; the tree
 *        room; the table, in three times 8 bytes a record; the bytes for the sheet; `out`
 * What came out of it is the number in 4 bytes; one byte, 0 where all that should stay has stayed (calls.h); then the cells, the tree room,
 * the table, the sheet and `out`, as far as the call takes them, without their lengths. With --lines it is a line: the number, and what `out` holds.
 */
#define _POSIX_C_SOURCE 200112L

#include "batch.h"
#include "fixed.h"
#include "rows.h"

#include <pthread.h>
#include <stdio.h>
#include <stdlib.h>
#include <string.h>

static void *run_batch_here(void *form)
{
    run_batch(*(enum form *)form);
    return NULL;
}

static void run_batch_within(size_t stack, enum form form)
{
    pthread_attr_t attributes;
    pthread_t thread;
    if (pthread_attr_init(&attributes) != 0 || pthread_attr_setstacksize(&attributes, stack) != 0
        || pthread_create(&thread, &attributes, run_batch_here, &form) != 0 || pthread_join(thread, NULL) != 0) {
        give_up("no thread with so much stack");
    }
    pthread_attr_destroy(&attributes);
}

static int usage(void)
{
    fprintf(stderr, "usage: host --fixed\n       host [--lines] [--stack KB] < batch\n");
    return 64;
}

int main(int count, char **words)
{
    enum form form = IN_FULL;
    int at = 1;
    if (count == 2 && strcmp(words[1], "--fixed") == 0) {
        return run_fixed();
    }
    if (at < count && strcmp(words[at], "--lines") == 0) {
        form = AS_LINES;
        at++;
    }
    if (at == count) {
        run_batch(form);
    } else if (at + 2 == count && strcmp(words[at], "--stack") == 0) {
        run_batch_within(1024 * (size_t)strtoul(words[at + 1], NULL, 10), form);
    } else {
        return usage();
    }
    return 0;
}
