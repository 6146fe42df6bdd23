#include "batch.h"

#include "calls.h"

#include <inttypes.h>
#include <stdio.h>
#include <string.h>

static uint64_t read_mark(void)
{
    size_t mark;
    if (!read_number(8, &mark)) {
        give_up("the batch breaks off before a mark");
    }
    return mark;
}

static void read_inputs(struct asked *asked)
{
    size_t which;
    for (which = 0; which < INPUTS; which++) {
        if (takes_input(asked->call, which)) {
            replace_row(&asked->inputs[which], read_row(input_sizes[which]));
        }
    }
}

static void read_lent(struct asked *asked)
{
    size_t which;
    for (which = 0; which < LENT; which++) {
        if (takes_lent(asked->call, which)) {
            replace_row(&asked->lent[which], read_row(lent_sizes[which]));
        }
    }
}

/* Reads what a call takes, in the order of its parameters. */
static struct asked read_case(enum call call)
{
    struct asked asked = nothing_asked(call);
    read_inputs(&asked);
    if (call == TURNS) {
        asked.mark = read_mark();
    }
    read_lent(&asked);
    return asked;
}

static void write_bytes(const unsigned char *bytes, size_t length)
{
    if (fwrite(bytes, 1, length, stdout) != length) {
        give_up("output failed");
    }
}

static void write_number(uint64_t number, size_t bytes)
{
    unsigned char written[8];
    size_t at;
    for (at = 0; at < bytes; at++) {
        written[at] = (unsigned char)(number >> 8 * at);
    }
    write_bytes(written, bytes);
}

static void write_in_full(const struct left *left)
{
    size_t which;
    write_number(left->number, 4);
    write_number(left->fell, 1);
    for (which = 0; which < LENT; which++) {
        write_bytes(left->lent[which].bytes, left->lent[which].length);
    }
}

static void write_line(const struct left *left)
{
    struct row out = left->lent[OUT];
    uint64_t figure;
    size_t at;
    printf("%" PRIu32, left->number);
    for (at = 0; at < out.length; at += sizeof figure) {
        memcpy(&figure, out.bytes + at, sizeof figure);
        printf(" %" PRIu64, figure);
    }
    if (left->fell != ALL_STANDS) {
        printf(" fell %u", left->fell);
    }
    printf("\n");
}

static void run_case(enum call which, unsigned long number, enum form form)
{
    struct asked asked = read_case(which);
    struct left left = call(&asked, number);
    if (form == IN_FULL) {
        write_in_full(&left);
    } else {
        write_line(&left);
    }
    free_asked(asked);
    free_left(left);
}

void run_batch(enum form form)
{
    unsigned long number;
    size_t which;
    for (number = 0; read_number(1, &which); number++) {
        if (which < VERDICT || which > NIGHT) {
            give_up("no such call");
        }
        run_case((enum call)which, number, form);
    }
    end_batch();
}
