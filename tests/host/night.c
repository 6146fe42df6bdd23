#include "night.h"

#include <string.h>

struct row joined(struct row one, struct row other)
{
    struct row both = new_row(one.length + other.length);
    memcpy(both.bytes, one.bytes, one.length);
    memcpy(both.bytes + one.length, other.bytes, other.length);
    free_row(one);
    free_row(other);
    return both;
}

struct asked new_night(struct row pattern, struct row last, size_t room)
{
    struct asked night = nothing_asked(NIGHT);
    replace_row(&night.inputs[PATTERN], pattern);
    replace_row(&night.inputs[LAST], last);
    replace_row(&night.lent[CELLS], dirty_cells(DIMMHALT_MOST_CELLS + 2));
    replace_row(&night.lent[TREE], dirty_room(room));
    replace_row(&night.lent[TABLE], dirty_table(last.length / sizeof(uint64_t)));
    replace_row(&night.lent[SHEET], dirty_sheet(DIMMHALT_SHEET_BYTES + 2));
    replace_row(&night.lent[OUT], dirty_out(DIMMHALT_SHEET_FIGURES + 1));
    return night;
}

void add_reports(struct asked *night, size_t times, struct row report)
{
    uint64_t length = report.length;
    night->inputs[REPORTS] = joined(night->inputs[REPORTS], repeated(times, report.bytes, report.length));
    night->inputs[LENGTHS] = joined(night->inputs[LENGTHS], repeated(times, &length, sizeof length));
    free_row(report);
}

static void put_in_front(struct row *row, struct row front)
{
    if (front.length > row->length) {
        give_up("a fixed case lends less than should be written");
    }
    memcpy(row->bytes, front.bytes, front.length);
    free_row(front);
}

struct left refusal_left(const struct asked *night, uint32_t number, uint64_t value)
{
    struct left left = nothing_left(number);
    size_t which;
    for (which = 0; which < LENT; which++) {
        replace_row(&left.lent[which], copy_of(night->lent[which]));
    }
    if (left.lent[OUT].length > 0) {
        put_in_front(&left.lent[OUT], bytes_of(&value, sizeof value));
    }
    return left;
}

struct left sheet_left(const struct asked *night, struct row sheet, struct row table, struct row room)
{
    struct left left = refusal_left(night, DIMMHALT_ANSWERED, sheet.length);
    memset(left.lent[CELLS].bytes, 0, DIMMHALT_MOST_CELLS * sizeof(uint64_t));
    put_in_front(&left.lent[TREE], room);
    put_in_front(&left.lent[SHEET], sheet);
    replace_row(&left.lent[TABLE], table);
    return left;
}
