/* The first tree held to the rules' own examples, each with the lent memory that decides it. */
#include "fixed.h"

#include <string.h>

/* Tokens: a mark opened, a mark closed, a byte of the text. */
#define O(mark) DIMMHALT_OPENS(mark)
#define C(mark) DIMMHALT_CLOSES(mark)
#define B(byte) DIMMHALT_BYTE(byte)

/* An answer; the row is that of 0, two bytes a token, and belongs to it. */
struct wanted {
    uint32_t number;
    uint64_t value;
    uint64_t flag;
    struct row row;
};

static struct wanted refusal(uint32_t number, uint64_t value)
{
    struct wanted wanted;
    wanted.number = number;
    wanted.value = value;
    wanted.flag = 0;
    wanted.row = new_row(0);
    return wanted;
}

static struct wanted tree(uint64_t flag, struct row row)
{
    struct wanted wanted;
    wanted.number = DIMMHALT_ANSWERED;
    wanted.value = row.length / sizeof(uint16_t);
    wanted.flag = flag;
    wanted.row = row;
    return wanted;
}

/* What a call leaves in so many cells, tokens and figures. */
static struct left left_of(const struct wanted *wanted, size_t text_length, size_t cells, size_t room, size_t out)
{
    const uint64_t figures[DIMMHALT_FIRST_TREE_FIGURES] = {wanted->value, wanted->flag};
    uint32_t number = wanted->number;
    struct left left = nothing_left(number);
    replace_row(&left.lent[CELLS], dirty_cells(cells));
    replace_row(&left.lent[TREE], dirty_room(room));
    replace_row(&left.lent[OUT], out_with(out, figures, DIMMHALT_FIRST_TREE_FIGURES));
    if (number == DIMMHALT_NO_TREE || number == DIMMHALT_ROOM_TOO_SMALL || number == DIMMHALT_ANSWERED) {
        memset(left.lent[CELLS].bytes, 0, DIMMHALT_CELLS(text_length) * sizeof(uint64_t));
    }
    memcpy(left.lent[TREE].bytes, wanted->row.bytes, wanted->row.length);
    return left;
}

/* Holds the first tree to its answer and to all that it leaves, with `out` of so many figures. Frees the pattern, the text and the row. */
static void hold_with_out(size_t out, const char *what, struct row pattern, struct row text, size_t cells, size_t room, struct wanted wanted)
{
    struct asked asked = nothing_asked(FIRST_TREE);
    struct left left = left_of(&wanted, text.length, cells, room, out);
    replace_row(&asked.inputs[PATTERN], pattern);
    replace_row(&asked.inputs[TEXT], text);
    replace_row(&asked.lent[CELLS], dirty_cells(cells));
    replace_row(&asked.lent[TREE], dirty_room(room));
    replace_row(&asked.lent[OUT], dirty_out(out));
    hold(what, asked, left);
    free_row(wanted.row);
}

/* The same with `out` of one more than the figures. */
static void hold_tree(const char *what, struct row pattern, struct row text, size_t cells, size_t room, struct wanted wanted)
{
    hold_with_out(DIMMHALT_FIRST_TREE_FIGURES + 1, what, pattern, text, cells, room, wanted);
}

/* Holds a text with a tree to it, with cells and room on both sides of what is needed. Frees the row. */
static void hold_reading(const char *pattern, const char *text, uint64_t flag, struct row row)
{
    size_t n = strlen(text), length = row.length / sizeof(uint16_t);
    hold_tree(pattern, string(pattern), string(text), n + 1, length, tree(flag, copy_of(row)));
    hold_tree(pattern, string(pattern), string(text), n + 2, length + 1, tree(flag, copy_of(row)));
    hold_tree(pattern, string(pattern), string(text), n + 300, length + 1000, tree(flag, copy_of(row)));
    hold_tree(pattern, string(pattern), string(text), n, length, refusal(3, 0));
    hold_tree(pattern, string(pattern), string(text), 0, 0, refusal(3, 0));
    if (length > 0) {
        hold_tree(pattern, string(pattern), string(text), n + 1, length - 1, refusal(9, length));
        hold_tree(pattern, string(pattern), string(text), n + 3, 0, refusal(9, length));
    }
    free_row(row);
}

static void hold_readings(void)
{
    const uint16_t turn[] = {O(1), C(1)}, twice[] = {O(1), B('a'), C(1), O(1), B('a'), C(1)};
    const uint16_t inner[] = {O(1), O(2), B('a'), C(2), C(1)}, inner_twice[] = {O(1), O(2), B('a'), C(2), O(2), B('a'), C(2), C(1)};
    const uint16_t branch[] = {O(1), B('a'), C(1)}, desk[] = {O(1), B('a'), C(1), O(3), B('b'), C(3)};
    const uint16_t rows[] = {O(1), O(2), B('r'), B('o'), B('w'), C(2), O(2), B('r'), B('o'), B('w'), C(2), C(1)};
    hold_reading("()", "", 0, new_row(0));
    hold_reading("a*", "", 0, new_row(0));
    hold_reading("()+", "", 0, bytes_of(turn, sizeof turn));
    hold_reading("a+", "aa", 0, bytes_of(twice, sizeof twice));
    hold_reading("(a*)*", "a", 0, bytes_of(inner, sizeof inner));
    hold_reading("(a*)*", "aa", 1, bytes_of(inner_twice, sizeof inner_twice));
    hold_reading("(a*)+", "", 0, bytes_of(turn, sizeof turn));
    hold_reading("(a*)?", "", 0, new_row(0));
    hold_reading("a|a", "a", 1, bytes_of(branch, sizeof branch));
    hold_reading("(a|())+", "a", 0, bytes_of(inner, sizeof inner));
    hold_reading("(a|ab)b?", "ab", 1, bytes_of(desk, sizeof desk));
    hold_reading("((row)*)+", "", 0, bytes_of(turn, sizeof turn));
    hold_reading("((row)*)+", "rowrow", 1, bytes_of(rows, sizeof rows));
}

static void hold_no_tree(const char *text, size_t place)
{
    hold_tree(text, string("a.c"), string(text), strlen(text) + 1, 4, refusal(8, place));
    hold_tree(text, string("a.c"), string(text), 40, 0, refusal(8, place));
}

static void hold_places(void)
{
    size_t at;
    for (at = 0; at < MISTAKES; at++) {
        hold_tree(mistakes[at].bytes, string(mistakes[at].bytes), string("x"), 3, 4, refusal(4, mistakes[at].place));
    }
    hold_no_tree("axd", 2);
    hold_no_tree("ax", 2);
    hold_no_tree("axcc", 3);
    hold_no_tree("", 0);
}

static void hold_limits(void)
{
    const uint16_t turn[] = {O(1), B('a'), C(1)}, letter[] = {B('a')};
    hold_tree("() 256 times", wrapped(256, "()", "", ""), string(""), 1, 3, tree(0, new_row(0)));
    hold_tree("() 257 times", wrapped(257, "()", "", ""), string(""), 1, 3, refusal(1, 0));
    hold_tree("4,096 letters", string("a*"), wrapped(4096, "a", "", ""), 4097, 12288, tree(0, repeated(4096, turn, sizeof turn)));
    hold_tree("4,096 letters, a token short", string("a*"), wrapped(4096, "a", "", ""), 4097, 12287, refusal(9, 12288));
    hold_tree("4,096 letters, a cell short", string("a*"), wrapped(4096, "a", "", ""), 4096, 12288, refusal(3, 0));
    hold_tree("4,097 letters", string("a*"), wrapped(4097, "a", "", ""), 5000, 20000, refusal(2, 0));
    hold_tree("64 letters", wrapped(64, "a", "", ""), wrapped(64, "a", "", ""), 65, 64, tree(0, repeated(64, letter, sizeof letter)));
    hold_tree("65 letters", wrapped(65, "a", "", ""), wrapped(65, "a", "", ""), 66, 65, refusal(6, 0));
    hold_tree("64 groups", wrapped(64, "(", "a", ")"), string("a"), 2, 1, tree(0, bytes_of(letter, sizeof letter)));
    hold_tree("65 groups", wrapped(65, "(", "a", ")"), string("a"), 2, 1, refusal(5, 0));
    hold_tree("64 marks, all the room that can be needed", wrapped(63, "(", "a?", ")?"), string("a"), 2, 129, tree(0, under_64_marks()));
    hold_tree("64 marks, a token short", wrapped(63, "(", "a?", ")?"), string("a"), 2, 128, refusal(9, 129));
    hold_tree("65 marks", wrapped(64, "(", "a?", ")?"), string("a"), 2, 129, refusal(7, 0));
    hold_tree("the largest room", string("a?"), string("a"), 2, 528384, tree(0, bytes_of(turn, sizeof turn)));
}

/* Of several refusals the first in order is given. */
static void hold_order(void)
{
    hold_tree("a long pattern, a long text, no cells", wrapped(513, "(", "", ""), wrapped(4097, "a", "", ""), 0, 0, refusal(1, 0));
    hold_tree("a long text, no cells, not a pattern", string("("), wrapped(4097, "a", "", ""), 0, 0, refusal(2, 0));
    hold_tree("no cells, not a pattern", string("("), string("aa"), 0, 0, refusal(3, 0));
    hold_tree("a cell short, many positions", wrapped(65, "a", "", ""), string("aa"), 2, 9, refusal(3, 0));
    hold_tree("not a pattern, and deep", wrapped(65, "(", "", ""), string("aa"), 3, 9, refusal(4, 65));
    hold_tree("deep, with many positions and marks", wrapped(65, "(a*", "a", ")"), string("aa"), 3, 9, refusal(5, 0));
    hold_tree("many positions and marks", wrapped(65, "a*", "", ""), string("aa"), 3, 0, refusal(6, 0));
    hold_tree("many marks, and no tree", wrapped(65, "()*", "", ""), string("aa"), 3, 0, refusal(7, 0));
    hold_tree("no tree, and no room", string("a+"), string("ab"), 3, 0, refusal(8, 1));
}

/* Each answer with `out` of every length up to three more than the figures. */
static void hold_outs(void)
{
    const uint16_t branch[] = {O(1), B('a'), C(1)};
    size_t out;
    for (out = 0; out <= DIMMHALT_FIRST_TREE_FIGURES + 3; out++) {
        hold_with_out(out, "out of 0, one tree", string("a*"), string("a"), 2, 3, tree(0, bytes_of(branch, sizeof branch)));
        hold_with_out(out, "out of 0, two trees", string("a|a"), string("a"), 2, 4, tree(1, bytes_of(branch, sizeof branch)));
        hold_with_out(out, "out of 1", wrapped(513, "a", "", ""), string("a"), 2, 3, refusal(1, 0));
        hold_with_out(out, "out of 2", string("a*"), wrapped(4097, "a", "", ""), 2, 3, refusal(2, 0));
        hold_with_out(out, "out of 3", string("a*"), string("a"), 1, 3, refusal(3, 0));
        hold_with_out(out, "out of 4", string("a**"), string("a"), 2, 3, refusal(4, 2));
        hold_with_out(out, "out of 5", wrapped(65, "(", "a", ")"), string("a"), 2, 3, refusal(5, 0));
        hold_with_out(out, "out of 6", wrapped(65, "a", "", ""), string("a"), 2, 3, refusal(6, 0));
        hold_with_out(out, "out of 7", wrapped(65, "()*", "", ""), string("a"), 2, 3, refusal(7, 0));
        hold_with_out(out, "out of 8", string("a*"), string("ab"), 3, 3, refusal(8, 1));
        hold_with_out(out, "out of 9", string("a*"), string("a"), 2, 2, refusal(9, 3));
    }
}

void hold_first_trees(void)
{
    hold_readings();
    hold_places();
    hold_limits();
    hold_order();
    hold_outs();
}
