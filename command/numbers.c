#include "numbers.h"

#include <string.h>

static int is_digit(uint8_t byte) { return byte >= '0' && byte <= '9'; }

static uint64_t with_digit(uint64_t size, uint64_t digit) { return size > (UINT64_MAX - digit) / 10 ? UINT64_MAX : size * 10 + digit; }

/* Takes a line without its end, and says whether it is a number. */
static int take_number(struct number *number, struct bytes line) {
    size_t at = line.length > 0 && (line.first[0] == '+' || line.first[0] == '-') ? 1 : 0;
    *number = (struct number){at == 1 ? (char)line.first[0] : '\0', 0};
    if (at == line.length) return 0;
    for (; at < line.length; at++) {
        if (!is_digit(line.first[at])) return 0;
        number->size = with_digit(number->size, (uint64_t)(line.first[at] - '0'));
    }
    return 1;
}

size_t take_numbers(struct numbers *numbers, struct bytes bytes) {
    size_t taken = 0;
    numbers->count = 0;
    while (taken < bytes.length) {
        const uint8_t *first = bytes.first + taken, *end = memchr(first, '\n', bytes.length - taken);
        if (end == NULL || !take_number(&numbers->of[numbers->count], (struct bytes){first, (size_t)(end - first)})) break;
        numbers->count++;
        taken = (size_t)(end + 1 - bytes.first);
    }
    return taken;
}

size_t place_of_report(size_t report) { return 1 + report; }
size_t place_of_record(const struct form *form, size_t mark) { return place_of_report(form->reports) + 1 + 3 * mark; }
size_t place_of_change(const struct form *form, size_t mark) { return place_of_record(form, form->marks) + 1 + mark; }

static int is_plain(struct number number, uint64_t most) { return number.sign == '\0' && number.size <= most; }

/* A change at zero has no sign, and any other has one. */
static int is_change(struct number number) { return (number.sign == '\0') == (number.size == 0); }

/* Takes the number at a place, behind those before it, and says whether it can stand there. */
static int take_place(struct form *form, size_t place, struct number number) {
    if (place == 0) {
        form->reports = number.size;
        return is_plain(number, DIMMHALT_REPORT_LIMIT);
    }
    if (place < place_of_report(form->reports)) return is_plain(number, UINT64_MAX);
    if (place == place_of_report(form->reports)) {
        form->marks = number.size;
        return is_plain(number, DIMMHALT_MARK_LIMIT);
    }
    if (place < place_of_record(form, form->marks)) return is_plain(number, UINT64_MAX);
    if (place == place_of_record(form, form->marks)) return is_plain(number, UINT64_MAX) && number.size == form->marks;
    return place < place_of_change(form, form->marks) && is_change(number);
}

int take_form(struct form *form, const struct numbers *numbers, size_t *wrong) {
    *form = (struct form){0, 0};
    for (*wrong = 0; *wrong < numbers->count; ++*wrong) {
        if (!take_place(form, *wrong, numbers->of[*wrong])) return 0;
    }
    return numbers->count == place_of_change(form, form->marks);
}
