#include "last.h"

#include <string.h>

#include "quote.h"
#include "words.h"

static int are_plain(const struct numbers *numbers) {
    for (size_t at = 0; at < numbers->count; at++) {
        if (numbers->of[at].sign != '\0') return 0;
    }
    return 1;
}

/* Ends the program because of the line that `rest` begins with. */
static void stop_at_line(const char *name, size_t line, struct bytes rest) {
    char shown[60];
    const uint8_t *end = memchr(rest.first, '\n', rest.length);
    const char *why = end == NULL ? "has no line end behind it" : "is no number";
    if (end != NULL) rest.length = (size_t)(end - rest.first);
    stop(STATUS_WRONG_CALL, name, "line %zu: %.*s %s", line, (int)quote(rest, sizeof shown, shown), shown, why);
}

static void take_turns(struct last *last, const struct numbers *numbers, size_t first, size_t step) {
    last->line = first + 1;
    last->step = step;
    for (size_t at = 0; at < last->count; at++) last->turns[at] = numbers->of[first + step * at].size;
}

/* What is no sheet may still be a list, with too many numbers or too few; a list has no signs. */
static void take_list(struct last *last, const struct numbers *numbers, size_t wrong) {
    const char *why = wrong == numbers->count ? "a number is missing there" : "such a number cannot stand there";
    if (!are_plain(numbers)) stop(STATUS_WRONG_CALL, last->name, "line %zu: %s in a sheet, and a list has no signs", wrong + 1, why);
    last->no_sheet_from = wrong + 1;
    last->count = numbers->count;
    take_turns(last, numbers, 0, 1);
}

void take_last(struct last *last, const char *name, struct bytes bytes, size_t marks) {
    static struct numbers numbers;
    struct form form;
    size_t taken, wrong;
    *last = (struct last){.name = name};
    if (bytes.length > DIMMHALT_SHEET_BYTES) stop(STATUS_WRONG_CALL, name, "it has more than 8,192 bytes, which no list and no sheet has");
    taken = take_numbers(&numbers, bytes);
    if (taken < bytes.length) stop_at_line(name, numbers.count + 1, (struct bytes){bytes.first + taken, bytes.length - taken});
    if (!take_form(&form, &numbers, &wrong) || (numbers.count == marks && are_plain(&numbers))) {
        take_list(last, &numbers, wrong);
    } else {
        last->count = form.marks;
        take_turns(last, &numbers, place_of_record(&form, 0), 3);
    }
}

size_t find_too_large(const struct last *last) {
    size_t at = 0;
    while (at < last->count && last->turns[at] <= DIMMHALT_LAST_LIMIT) at++;
    return at;
}

void stop_at_count(const struct last *last, size_t marks) {
    const char *why = why_refused(DIMMHALT_WRONG_MARKS);
    if (last->no_sheet_from == 0) {
        stop(STATUS_WRONG_CALL, last->name, REFUSED(DIMMHALT_WRONG_MARKS) "%s: the sheet has %zu, the pattern %zu", why, last->count, marks);
    }
    stop(STATUS_WRONG_CALL, last->name, REFUSED(DIMMHALT_WRONG_MARKS) "%s: the list has %zu, the pattern %zu; it is no sheet from line %zu on",
         why, last->count, marks, last->no_sheet_from);
}

void stop_at_too_large(const struct last *last) {
    size_t line = last->line + last->step * find_too_large(last);
    stop(STATUS_WRONG_CALL, last->name, REFUSED(DIMMHALT_LAST_TOO_LARGE) "%s, in line %zu", why_refused(DIMMHALT_LAST_TOO_LARGE), line);
}
