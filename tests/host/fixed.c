#include "fixed.h"

#include <stdio.h>
#include <string.h>

const struct mistake mistakes[MISTAKES] = {{"", 0},      {"a**", 2},  {"(a", 2},  {")", 0}, {"[]", 1},
                                          {"[z-a]", 3}, {"[a-]", 3}, {"a\\", 2}, {"a|", 2}};

static unsigned int passed;
static unsigned int failed;

static void note(int is_right, const char *what, const char *of_what)
{
    if (is_right) {
        passed++;
    } else {
        failed++;
        printf("host: %s: wrong %s\n", what, of_what);
    }
}

static struct row dirty(size_t count, uint64_t first)
{
    struct row row = new_row(count * sizeof first);
    size_t at;
    for (at = 0; at < count; at++) {
        uint64_t piece = first + at;
        memcpy(row.bytes + at * sizeof piece, &piece, sizeof piece);
    }
    return row;
}

struct row dirty_cells(size_t count)
{
    return dirty(count, UINT64_C(0x5a5a5a5a00000001));
}

struct row dirty_room(size_t count)
{
    struct row room = new_row(count * sizeof(uint16_t));
    size_t at;
    for (at = 0; at < count; at++) {
        uint16_t token = (uint16_t)(40000 + at % 20000);
        memcpy(room.bytes + at * sizeof token, &token, sizeof token);
    }
    return room;
}

struct row dirty_table(size_t count)
{
    return dirty(count * (sizeof(struct dimmhalt_record) / sizeof(uint64_t)), UINT64_C(0xa5a5a5a500000001));
}

struct row dirty_sheet(size_t count)
{
    struct row sheet = new_row(count);
    size_t at;
    for (at = 0; at < count; at++) {
        sheet.bytes[at] = (unsigned char)(128 + at % 101);
    }
    return sheet;
}

struct row dirty_out(size_t count)
{
    return dirty(count, UINT64_C(0xc3c3c3c300000001));
}

struct row out_with(size_t count, const uint64_t *figures, size_t named)
{
    struct row out = dirty_out(count);
    memcpy(out.bytes, figures, (count < named ? count : named) * sizeof *figures);
    return out;
}

struct row under_64_marks(void)
{
    uint16_t tokens[129];
    uint16_t mark;
    for (mark = 1; mark <= 64; mark++) {
        tokens[mark - 1] = DIMMHALT_OPENS(mark);
        tokens[129 - mark] = DIMMHALT_CLOSES(mark);
    }
    tokens[64] = DIMMHALT_BYTE('a');
    return bytes_of(tokens, sizeof tokens);
}

void hold(const char *what, struct asked asked, struct left wanted)
{
    static const char *const names[LENT] = {"cells", "tree room", "table", "sheet", "figures"};
    struct left left = call(&asked, passed + failed);
    size_t which;
    note(left.number == wanted.number, what, "number");
    note(left.fell == ALL_STANDS, what, "guard or input, or otherwise when called again");
    for (which = 0; which < LENT; which++) {
        if (takes_lent(asked.call, which)) {
            note(is_same(left.lent[which], wanted.lent[which]), what, names[which]);
        }
    }
    free_asked(asked);
    free_left(left);
    free_left(wanted);
}

int run_fixed(void)
{
    hold_verdicts();
    hold_first_trees();
    hold_reads();
    hold_turns();
    hold_sheets();
    hold_refused_sheets();
    printf("host: %u passed, %u failed\n", passed, failed);
    return failed == 0 ? 0 : 1;
}
