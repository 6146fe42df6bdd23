/* The turn count held to rows that are trees and to rows that are none, with `out` of every length up to three more than the count. */
#include "fixed.h"
#include "words.h"

#include <string.h>

/* How many tokens the long rows have. To look for its closing behind each opening would take hours. */
#define MANY ((size_t)5000000)

/* A row, a mark, and how many of its turns are counted. */
struct counted {
    const char *row;
    uint64_t mark;
    uint64_t count;
};

static const struct counted trees[] = {
    {"o1 b97 c1 o1 b97 c1", 1, 2},
    {"o1 b97 c1 o1 b97 c1", 2, 0},
    {"", 1, 0},
    /* `()+`, and `((row)*)+`, on the empty text; the latter on rowrow, with its two trees */
    {"o1 c1", 1, 0},
    {"o1 c1", 2, 0},
    {"o1 o2 b114 b111 b119 c2 o2 b114 b111 b119 c2 c1", 1, 1},
    {"o1 o2 b114 b111 b119 c2 o2 b114 b111 b119 c2 c1", 2, 2},
    {"o1 o2 b114 b111 b119 c2 c1 o1 o2 b114 b111 b119 c2 c1", 1, 2},
    /* `(a|())+b?` on b: an empty choice in an empty turn, and a turn with text */
    {"o1 o3 c3 c1 o4 b98 c4", 1, 0},
    {"o1 o3 c3 c1 o4 b98 c4", 3, 0},
    {"o1 o3 c3 c1 o4 b98 c4", 4, 1},
    {"o64 b0 c64", 64, 1},
};

static const struct counted no_trees[] = {
    {"o1 o1 b97 c1 o1 b97", 1, 2},
    {"o1", 1, 0},
    {"o1 b97", 1, 0},
    {"c1", 1, 0},
    {"c1 o1 b97", 1, 0},
    {"c1 b97 o1", 1, 0},
    {"c1 b97 c1", 1, 0},
    {"b97 o1 c1", 1, 0},
    {"o1 c1 b97", 1, 0},
    {"o1 c1 b97 c1", 1, 0},
    {"o1 b97 c1 c1", 1, 1},
    {"o1 c1 o1 b97 c1", 1, 1},
    {"o1 b97 c1 o1 c1", 1, 1},
    {"o1 b97 o1 c1", 1, 1},
    {"o1 b97 o1 b97 c1", 1, 2},
    {"o1 o1 o1 o1 b97 c1", 1, 4},
    {"o1 o1 o1 o1 c1 b97 c1", 1, 0},
    {"o1 b97 c2", 1, 0},
    {"o2 b97 c1", 1, 0},
    {"o1 o2 c2 c1", 1, 0},
    {"o1 o2 b97 c1 c2", 1, 1},
    {"o1 o2 c1 b97 c2", 1, 0},
    {"o1 o2 c1 b97 c2", 2, 1},
    {"o64 o0 o64 o65 65535 b64 c64 o64", 64, 2},
    {"o64 b97 c0 c65 c63 b192", 64, 0},
};

/* The one token between is a byte token, or is none. */
static const struct counted between[] = {
    {"o1 0 c1", 1, 0},     {"o1 2 c1", 1, 0},      {"o1 128 c1", 1, 0},    {"o1 130 c1", 1, 0},   {"o1 255 c1", 1, 0},
    {"o1 256 c1", 1, 1},   {"o1 257 c1", 1, 1},    {"o1 385 c1", 1, 1},    {"o1 511 c1", 1, 1},   {"o1 512 c1", 1, 0},
    {"o1 513 c1", 1, 0},   {"o1 609 c1", 1, 0},    {"o1 641 c1", 1, 0},    {"o1 32768 c1", 1, 0}, {"o1 33121 c1", 1, 0},
    {"o1 65535 c1", 1, 0}, {"o64 192 256", 64, 0}, {"o64 256 192", 64, 1},
};

/* A token that has the low bits of an opening, or of a closing, and is another. */
static const struct counted like_others[] = {
    {"257 b97 c1", 1, 0}, {"513 b97 c1", 1, 0},   {"65 b97 c1", 1, 0},    {"32769 b97 c1", 1, 0},
    {"o1 b97 385", 1, 0}, {"o1 b97 641", 1, 0},   {"o1 b97 32897", 1, 0}, {"o1 b97 193", 1, 0},
    {"o1 b97 1", 1, 0},   {"o64 b97 448", 64, 0}, {"320 b97 192", 64, 0}, {"o1 385 b97 c1", 1, 1},
};

/* None of 1 to 64, with the tokens of a turn of it where it has such. */
static const struct counted no_marks[] = {
    {"0 b97 128", 0, 0},
    {"", 0, 0},
    {"65 b97 193", 65, 0},
    {"127 b97 255", 127, 0},
    {"128 b97 256", 128, 0},
    {"o1 b97 c1 b97 257", 129, 0},
    {"353 b97 481", 353, 0},
    {"65535 b97 127", 65535, 0},
    {"0 b97 128", 65536, 0},
    {"o1 b97 c1", 65537, 0},
    {"o1 b97 c1", (UINT64_C(1) << 32) + 1, 0},
    {"o1 b97 c1", (UINT64_C(1) << 63) + 1, 0},
    {"65535 b97 127", UINT64_MAX, 0},
    {"o64 b97 c64", UINT64_MAX - 63, 0},
};

/* Frees the row. */
static void hold_with_out(size_t out, const char *what, struct row row, uint64_t mark, uint32_t number, uint64_t count)
{
    struct asked asked = nothing_asked(TURNS);
    struct left left = nothing_left(number);
    replace_row(&asked.inputs[ROW], row);
    asked.mark = mark;
    replace_row(&asked.lent[OUT], dirty_out(out));
    replace_row(&left.lent[OUT], out_with(out, &count, DIMMHALT_TURNS_FIGURES));
    hold(what, asked, left);
}

static void hold_all(const struct counted *all, size_t count, uint32_t number)
{
    size_t at, out;
    for (at = 0; at < count; at++) {
        const char *row = all[at].row, *what = *row == '\0' ? "an empty row" : row;
        for (out = 0; out <= DIMMHALT_TURNS_FIGURES + 3; out++) {
            hold_with_out(out, what, row_of(row), all[at].mark, number, all[at].count);
        }
    }
}

/* Holds the turns of mark 1 in a row of MANY tokens: `piece` again and again, and `end`. */
static void hold_many(const char *what, const char *piece, const char *end, uint64_t count)
{
    struct row turn = row_of(piece), last = row_of(end);
    struct row row = repeated(MANY * sizeof(uint16_t) / turn.length, turn.bytes, turn.length);
    memcpy(row.bytes + row.length - last.length, last.bytes, last.length);
    free_row(turn);
    free_row(last);
    hold_with_out(DIMMHALT_TURNS_FIGURES + 1, what, row, 1, DIMMHALT_ANSWERED, count);
}

void hold_turns(void)
{
    hold_all(trees, sizeof trees / sizeof *trees, DIMMHALT_ANSWERED);
    hold_all(no_trees, sizeof no_trees / sizeof *no_trees, DIMMHALT_ANSWERED);
    hold_all(between, sizeof between / sizeof *between, DIMMHALT_ANSWERED);
    hold_all(like_others, sizeof like_others / sizeof *like_others, DIMMHALT_ANSWERED);
    hold_all(no_marks, sizeof no_marks / sizeof *no_marks, DIMMHALT_NO_SUCH_MARK);
    hold_many("many openings, a byte, a closing", "o1", "b97 c1", MANY - 2);
    hold_many("many openings, a byte, no closing", "o1", "b97", 0);
    hold_many("many openings, a closing, a byte", "o1", "c1 b97", 0);
    hold_many("many openings with a byte each, a closing", "o1 b97", "b97 c1", MANY / 2 - 1);
    hold_many("many turns, each closed", "o1 c1 o1 b97 c1", "", MANY / 5);
}
