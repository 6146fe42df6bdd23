/* Makes the calls and looks at what they leave. */
#include "calls.h"

#include "dimmhalt.h"

#include <string.h>

const size_t input_sizes[INPUTS] = {1, 1, sizeof(uint16_t), 1, sizeof(uint64_t), sizeof(uint64_t)};
const size_t lent_sizes[LENT] = {sizeof(uint64_t), sizeof(uint16_t), sizeof(struct dimmhalt_record), 1, sizeof(uint64_t)};

int takes_input(enum call call, enum input which)
{
    switch (which) {
    case PATTERN:
        return call != TURNS;
    case TEXT:
        return call == VERDICT || call == FIRST_TREE;
    case ROW:
        return call == TURNS;
    default:
        return call == NIGHT;
    }
}

int takes_lent(enum call call, enum lent which)
{
    switch (which) {
    case CELLS:
    case TREE:
        return call == FIRST_TREE || call == NIGHT;
    case OUT:
        return call != VERDICT;
    default:
        return call == NIGHT;
    }
}

static void empty_rows(struct row *rows, size_t count)
{
    size_t which;
    for (which = 0; which < count; which++) {
        rows[which] = new_row(0);
    }
}

static void free_rows(struct row *rows, size_t count)
{
    size_t which;
    for (which = 0; which < count; which++) {
        free_row(rows[which]);
    }
}

struct asked nothing_asked(enum call call)
{
    struct asked asked;
    asked.call = call;
    asked.mark = 0;
    empty_rows(asked.inputs, INPUTS);
    empty_rows(asked.lent, LENT);
    return asked;
}

void free_asked(struct asked asked)
{
    free_rows(asked.inputs, INPUTS);
    free_rows(asked.lent, LENT);
}

void free_left(struct left left)
{
    free_rows(left.lent, LENT);
}

struct left nothing_left(uint32_t number)
{
    struct left left;
    left.number = number;
    left.fell = ALL_STANDS;
    empty_rows(left.lent, LENT);
    return left;
}

static void copy_rows(struct row *copies, const struct row *rows, size_t count)
{
    size_t which;
    for (which = 0; which < count; which++) {
        copies[which] = copy_of(rows[which]);
    }
}

static int are_same(const struct row *ones, const struct row *others, size_t count)
{
    size_t which;
    for (which = 0; which < count; which++) {
        if (!is_same(ones[which], others[which])) {
            return 0;
        }
    }
    return 1;
}

/* How many bytes stand guard on either side. */
#define GUARD ((size_t)64)

static unsigned char guard_byte(unsigned long number, size_t at)
{
    return (unsigned char)(((number + 1) * 2654435761UL + at * 40503UL) >> 7);
}

/* A guard, the same bytes, and a guard, with nothing between. */
static struct row guarded(struct row row, unsigned long number)
{
    struct row block = new_row(row.length + 2 * GUARD);
    size_t at;
    for (at = 0; at < GUARD; at++) {
        block.bytes[at] = guard_byte(number, at);
        block.bytes[GUARD + row.length + at] = guard_byte(number, GUARD + at);
    }
    memcpy(block.bytes + GUARD, row.bytes, row.length);
    return block;
}

static int guards_stand(struct row block, unsigned long number)
{
    size_t at, behind = block.length - GUARD;
    for (at = 0; at < GUARD; at++) {
        if (block.bytes[at] != guard_byte(number, at) || block.bytes[behind + at] != guard_byte(number, GUARD + at)) {
            return 0;
        }
    }
    return 1;
}

/* The number of the guards of one lent row of a case. */
static unsigned long guards_of(unsigned long number, size_t which)
{
    return LENT * number + which;
}

static void guard_rows(struct row *blocks, const struct row *rows, unsigned long number)
{
    size_t which;
    for (which = 0; which < LENT; which++) {
        blocks[which] = guarded(rows[which], guards_of(number, which));
    }
}

/* Takes what lies between the guards out of the blocks. Answers whether all guards stand. */
static int take_from_guards(struct row *rows, struct row *blocks, unsigned long number)
{
    size_t which;
    int stand = 1;
    for (which = 0; which < LENT; which++) {
        stand = stand && guards_stand(blocks[which], guards_of(number, which));
        rows[which] = bytes_of(blocks[which].bytes + GUARD, blocks[which].length - 2 * GUARD);
    }
    free_rows(blocks, LENT);
    return stand;
}

static size_t pieces(const struct asked *asked, enum lent which)
{
    return asked->lent[which].length / lent_sizes[which];
}

static size_t input_pieces(const struct asked *asked, enum input which)
{
    return asked->inputs[which].length / input_sizes[which];
}

static uint32_t call_sheet_with(const struct asked *asked, const struct row *blocks, size_t start)
{
    const struct row *inputs = asked->inputs;
    const void *lengths = inputs[LENGTHS].bytes, *last = inputs[LAST].bytes;
    void *cells = blocks[CELLS].bytes + start, *tree = blocks[TREE].bytes + start, *table = blocks[TABLE].bytes + start;
    void *out = blocks[OUT].bytes + start;
    return dimmhalt_sheet(inputs[PATTERN].bytes, inputs[PATTERN].length, inputs[REPORTS].bytes, inputs[REPORTS].length, lengths,
                          input_pieces(asked, LENGTHS), last, input_pieces(asked, LAST), cells, pieces(asked, CELLS), tree, pieces(asked, TREE),
                          table, pieces(asked, TABLE), blocks[SHEET].bytes + start, pieces(asked, SHEET), out, pieces(asked, OUT));
}

/* The call itself. What is lent starts so many bytes into the blocks, and is as long as in the case. */
static uint32_t call_with(const struct asked *asked, const struct row *blocks, size_t start)
{
    const struct row *inputs = asked->inputs;
    const void *row = inputs[ROW].bytes;
    void *cells = blocks[CELLS].bytes + start, *tree = blocks[TREE].bytes + start, *out = blocks[OUT].bytes + start;
    switch (asked->call) {
    case VERDICT:
        return dimmhalt_verdict(inputs[PATTERN].bytes, inputs[PATTERN].length, inputs[TEXT].bytes, inputs[TEXT].length);
    case FIRST_TREE:
        return dimmhalt_first_tree(inputs[PATTERN].bytes, inputs[PATTERN].length, inputs[TEXT].bytes, inputs[TEXT].length, cells,
                                   pieces(asked, CELLS), tree, pieces(asked, TREE), out, pieces(asked, OUT));
    case READ:
        return dimmhalt_read(inputs[PATTERN].bytes, inputs[PATTERN].length, out, pieces(asked, OUT));
    case TURNS:
        return dimmhalt_turns(row, input_pieces(asked, ROW), asked->mark, out, pieces(asked, OUT));
    case NIGHT:
        return call_sheet_with(asked, blocks, start);
    }
    give_up("no such call");
    return 0;
}

static struct left call_between_guards(const struct asked *asked, unsigned long number)
{
    struct row blocks[LENT];
    struct left left;
    guard_rows(blocks, asked->lent, number);
    left.number = call_with(asked, blocks, GUARD);
    left.fell = take_from_guards(left.lent, blocks, number) ? ALL_STANDS : GUARD_FELL;
    return left;
}

/* Whether a call with lent blocks of just their length comes out as the one before did. */
static int is_same_again(const struct asked *asked, const struct left *left)
{
    struct row blocks[LENT];
    int same;
    copy_rows(blocks, asked->lent, LENT);
    same = call_with(asked, blocks, 0) == left->number && are_same(blocks, left->lent, LENT);
    free_rows(blocks, LENT);
    return same;
}

struct left call(const struct asked *asked, unsigned long number)
{
    struct row before[INPUTS];
    struct left left;
    copy_rows(before, asked->inputs, INPUTS);
    left = call_between_guards(asked, number);
    if (left.fell == ALL_STANDS && !is_same_again(asked, &left)) {
        left.fell += OTHERWISE_AGAIN;
    }
    if (!are_same(before, asked->inputs, INPUTS)) {
        left.fell += INPUT_CHANGED;
    }
    free_rows(before, INPUTS);
    return left;
}
