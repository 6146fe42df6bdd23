#include "sheeted.h"

#include "numbers.h"

/* Lent to the call, and enough for every night. */
static uint64_t cells[DIMMHALT_MOST_CELLS];
static uint16_t tree[DIMMHALT_MOST_ROOM];
static struct dimmhalt_record table[DIMMHALT_MARK_LIMIT];
static uint8_t sheet[DIMMHALT_SHEET_BYTES];

/* Takes the number of a report, and says whether it can be: 2 for one that is too long, and for no other. */
static int take_answer(struct sheeted *sheeted, size_t report, uint64_t length, struct number number) {
    sheeted->answers[report] = number.size;
    if (length > DIMMHALT_TEXT_LIMIT) return number.size == DIMMHALT_TEXT_TOO_LONG;
    return number.size == DIMMHALT_ANSWERED || number.size == DIMMHALT_NO_TREE || number.size == DIMMHALT_ROOM_TOO_SMALL;
}

static int take_answers(struct sheeted *sheeted, const struct night *night, const struct numbers *numbers) {
    for (size_t at = 0; at < night->count; at++) {
        if (!take_answer(sheeted, at, night->lengths[at], numbers->of[place_of_report(at)])) return 0;
    }
    return 1;
}

/*
 * Whether the three numbers of a mark are those of its record, and can be. Each counted turn reads bytes of its own, so there are no more turns
 * than bytes, and no more bytes than the reports have.
 */
static int is_record(const struct number *three, const struct dimmhalt_record *record, const struct night *night) {
    if (record->turns > record->bytes || record->longest > record->bytes || record->bytes > night->row.length) return 0;
    return three[0].size == record->turns && three[1].size == record->bytes && three[2].size == record->longest;
}

/* Takes the change of a mark, and says whether it leads from last night's turns to tonight's, which are both small. */
static int take_change(struct sheeted *sheeted, size_t mark, uint64_t last, struct number number) {
    int64_t change = (int64_t)table[mark].turns - (int64_t)last;
    sheeted->changes[mark] = change;
    return number.size == (uint64_t)(change < 0 ? -change : change) && (number.sign == '-') == (change < 0);
}

static int take_marks(struct sheeted *sheeted, const struct night *night, const struct last *last, const struct numbers *numbers) {
    struct form form = {night->count, sheeted->marks};
    for (size_t at = 0; at < form.marks; at++) {
        if (!is_record(&numbers->of[place_of_record(&form, at)], &table[at], night)) return 0;
        if (!take_change(sheeted, at, last->turns[at], numbers->of[place_of_change(&form, at)])) return 0;
    }
    return 1;
}

/* Takes what the sheet says, and says whether it can be the sheet of the night. */
static int take_sheet(struct sheeted *sheeted, const struct night *night, const struct last *last) {
    static struct numbers numbers;
    struct form form;
    size_t wrong;
    if (last->count != sheeted->marks || find_too_large(last) < last->count || sheeted->value > DIMMHALT_SHEET_BYTES) return 0;
    sheeted->sheet = (struct bytes){sheet, sheeted->value};
    if (take_numbers(&numbers, sheeted->sheet) < sheeted->value || !take_form(&form, &numbers, &wrong)) return 0;
    if (form.reports != night->count || form.marks != sheeted->marks) return 0;
    return take_answers(sheeted, night, &numbers) && take_marks(sheeted, night, last, &numbers);
}

/* Whether the call can have answered so, for a pattern that was read before. */
static int is_possible(struct sheeted *sheeted, const struct night *night, const struct last *last) {
    switch (sheeted->number) {
    case DIMMHALT_ANSWERED: return take_sheet(sheeted, night, last);
    case DIMMHALT_WRONG_LENGTHS: return sheeted->value == 0 && night->count > DIMMHALT_REPORT_LIMIT;
    case DIMMHALT_WRONG_MARKS: return sheeted->value == 0 && last->count != sheeted->marks;
    case DIMMHALT_LAST_TOO_LARGE: return sheeted->value == 0 && find_too_large(last) < last->count;
    default: return 0;
    }
}

void ask_sheet(struct sheeted *sheeted, const struct night *night, const struct last *last, size_t marks) {
    static const char *const names[DIMMHALT_SHEET_FIGURES] = {"value"};
    uint64_t out[DIMMHALT_SHEET_FIGURES] = {0};
    *sheeted = (struct sheeted){.marks = marks, .table = table};
    sheeted->number = dimmhalt_sheet(night->pattern.first, night->pattern.length, night->row.first, night->row.length, night->lengths,
                                     night->count, last->turns, last->count, cells, DIMMHALT_MOST_CELLS, tree,
                                     DIMMHALT_ROOM(marks, DIMMHALT_TEXT_LIMIT), table, marks, sheet, DIMMHALT_SHEET_BYTES, out,
                                     DIMMHALT_SHEET_FIGURES);
    sheeted->value = out[0];
    if (!is_possible(sheeted, night, last)) stop_at_answer("dimmhalt_sheet", sheeted->number, names, out, DIMMHALT_SHEET_FIGURES);
}
