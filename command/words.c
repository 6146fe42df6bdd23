#include "words.h"

#include <inttypes.h>
#include <stdarg.h>
#include <stdio.h>

#include "dimmhalt.h"
#include "quote.h"

void say_painted(enum paint paint, const char *first, const char *rest, ...) {
    va_list words;
    va_start(words, rest);
    printf("%s%s%s: ", switch_to(paint), first, switch_to(PLAIN));
    vprintf(rest, words);
    putchar('\n');
    va_end(words);
}

/* Says which line a byte stands in and which of its bytes it is, both counted from 1. */
static void say_line(struct bytes bytes, uint64_t place) {
    char line_room[GROUPED_MOST], byte_room[GROUPED_MOST];
    uint64_t line = 1, line_start = 0;
    for (uint64_t at = 0; at < place; at++) {
        if (bytes.first[at] != '\n') continue;
        line++;
        line_start = at + 1;
    }
    printf("(line %s, byte %s of it)", grouped(line, line_room), grouped(place - line_start + 1, byte_room));
}

void say_where(struct bytes bytes, uint64_t place, const char *some) {
    char shown[QUOTE_LEAST_WIDTH], room[GROUPED_MOST];
    struct bytes wrong = {bytes.first + place, 1};
    if (bytes.length == 0) {
        puts("It is empty, and something is missing.");
        return;
    }
    if (place == bytes.length) {
        printf("All of it begins %s, but something is missing at its end.\n", some);
        return;
    }
    if (place == 0) printf("Its first byte");
    if (place == 1) printf("Its first byte begins %s; the byte after it", some);
    if (place > 1) printf("Its first %s bytes begin %s; the byte after them", grouped(place, room), some);
    printf(", %.*s, cannot stand there ", (int)quote(wrong, sizeof shown, shown), shown);
    say_line(bytes, place);
    puts(".");
}

/* The lists of refusals say some limits with a comma, which the preprocessor cannot put into them. */
typedef char text_limit_is_as_it_is_said[DIMMHALT_TEXT_LIMIT == 4096 ? 1 : -1];
typedef char report_limit_is_as_it_is_said[DIMMHALT_REPORT_LIMIT == 1000 ? 1 : -1];
typedef char last_limit_is_as_it_is_said[DIMMHALT_LAST_LIMIT == 4096000 ? 1 : -1];

#define RETURN_STATUS(number, status, refused, why) \
    case number: return status;

int status_of(uint32_t number, uint64_t flag) {
    switch (number) {
    case DIMMHALT_ANSWERED: return flag == 0 ? STATUS_ONE_TREE : STATUS_SEVERAL_TREES;
    case DIMMHALT_NO_TREE: return STATUS_NO_TREE;
    case DIMMHALT_NO_SUCH_MARK: return STATUS_MARK_REFUSED;
    REFUSALS(RETURN_STATUS)
    ROOM_REFUSAL(RETURN_STATUS)
    NIGHT_REFUSALS(RETURN_STATUS)
    default: return STATUS_INTERNAL;
    }
}

#define RETURN_WHY(number, status, refused, why) \
    case number: return why;

const char *why_refused(uint32_t number) {
    switch (number) {
    REFUSALS(RETURN_WHY)
    ROOM_REFUSAL(RETURN_WHY)
    NIGHT_REFUSALS(RETURN_WHY)
    default: return "";
    }
}

void say_no_tree(void) { say_painted(RED, "No tree, " NUMBERED(DIMMHALT_NO_TREE), NO_TREE "."); }

#define SAY_REFUSAL(number, status, refused, why) \
    case number: say_painted(RED, "The " refused " is refused, " NUMBERED(number), why "."); break;

void say_refusal(uint32_t number, uint64_t value, struct bytes pattern) {
    switch (number) {
    REFUSALS(SAY_REFUSAL)
    ROOM_REFUSAL(SAY_REFUSAL)
    }
    if (number == DIMMHALT_NOT_A_PATTERN) say_where(pattern, value, "some pattern");
}

void say_no_such_mark(uint64_t marks) {
    static const char refused[] = "The mark is refused, " NUMBERED(DIMMHALT_NO_SUCH_MARK);
    if (marks == 0) say_painted(RED, refused, "the pattern has no marks.");
    if (marks == 1) say_painted(RED, refused, "the pattern has mark 1 alone.");
    if (marks > 1) say_painted(RED, refused, "the pattern has marks 1 to %" PRIu64 ".", marks);
}
