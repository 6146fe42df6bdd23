/* Answers of the calls, in words and as exit statuses. */
#ifndef WORDS_H
#define WORDS_H

#include "dimmhalt.h"
#include "shared.h"

/* The digits of a number that has a name. */
#define DIGITS(number) DIGITS_AS_WRITTEN(number)
#define DIGITS_AS_WRITTEN(number) #number

/* How words name the number of an answer. */
#define NUMBERED(number) "number " DIGITS(number)

/* What a line on standard error says of something that is refused, before it says why. */
#define REFUSED(number) "refused, " NUMBERED(number) ": "

/* The answer that is neither a tree nor a refusal, and what is said where there are no counts. */
#define NO_TREE "the report does not fit the pattern"
#define NO_MARKS "The pattern has no marks."

/* The refusals: number, exit status, what is refused, and why. */
#define REFUSALS(REFUSAL)                                                                                                                 \
    REFUSAL(DIMMHALT_PATTERN_TOO_LONG, STATUS_PATTERN_REFUSED, "pattern", "it has more than " DIGITS(DIMMHALT_PATTERN_LIMIT) " bytes")    \
    REFUSAL(DIMMHALT_NOT_A_PATTERN, STATUS_PATTERN_REFUSED, "pattern", "it is not written by the rules")                                  \
    REFUSAL(DIMMHALT_NESTED_TOO_DEEP, STATUS_PATTERN_REFUSED, "pattern",                                                                  \
            "its groups stand more than " DIGITS(DIMMHALT_NESTING_LIMIT) " deep in each other")                                           \
    REFUSAL(DIMMHALT_TOO_MANY_POSITIONS, STATUS_PATTERN_REFUSED, "pattern",                                                               \
            "more than " DIGITS(DIMMHALT_POSITION_LIMIT) " places of it read a byte")                                                     \
    REFUSAL(DIMMHALT_TOO_MANY_MARKS, STATUS_PATTERN_REFUSED, "pattern",                                                                   \
            "it has more than " DIGITS(DIMMHALT_MARK_LIMIT) " branches and repeated parts")                                               \
    REFUSAL(DIMMHALT_TEXT_TOO_LONG, STATUS_REPORT_REFUSED, "report", "it has more than 4,096 bytes")

/* That of a report whose tree the room does not hold, and those of a night. */
#define ROOM_REFUSAL(REFUSAL) \
    REFUSAL(DIMMHALT_ROOM_TOO_SMALL, STATUS_REPORT_REFUSED, "report", "its tree is longer than the room that is lent")
#define NIGHT_REFUSALS(REFUSAL)                                                                                                           \
    REFUSAL(DIMMHALT_WRONG_LENGTHS, STATUS_WRONG_CALL, "reports", "there are more than 1,000 of them")                                    \
    REFUSAL(DIMMHALT_WRONG_MARKS, STATUS_WRONG_CALL, "last night's turns", "there is not one number for each mark")                       \
    REFUSAL(DIMMHALT_LAST_TOO_LARGE, STATUS_WRONG_CALL, "last night's turns", "a number is over 4,096,000")

/* A line of a table in a help: the number of an answer, its exit status, what it means. */
#define HELP_ANSWER(number, status, meaning) "  " DIGITS(number) "   " DIGITS(status) "  " meaning "\n"
#define HELP_REFUSAL(number, status, refused, why) HELP_ANSWER(number, status, refused " refused: " why)

/* Lines of it for numbers of two digits: the mark's, and those of a night, whose exit status has two as well. */
#define HELP_NO_SUCH_MARK \
    " " DIGITS(DIMMHALT_NO_SUCH_MARK) "   " DIGITS(STATUS_MARK_REFUSED) "  mark refused: the pattern does not have it\n"
#define HELP_NIGHT_REFUSAL(number, status, refused, why) " " DIGITS(number) "  " DIGITS(status) "  " refused " refused: " why "\n"

/* Lines of it for exit statuses of two digits, which go with no number. */
#define HELP_STATUS(status, meaning) "     " DIGITS(status) "  " meaning "\n"
#define STATUSES_HELP                                                              \
    HELP_STATUS(STATUS_WRONG_CALL, "wrong call, or a file that cannot be opened")  \
    HELP_STATUS(STATUS_INTERNAL, "an internal mistake")                            \
    HELP_STATUS(STATUS_INPUT_OUTPUT, "input or output failed")

/* The exit status for a number that is 0, 8, 10 or of a list of refusals. */
int status_of(uint32_t number, uint64_t flag);

/* Why something is refused, for a number of a list. */
const char *why_refused(uint32_t number);

/* Says on standard output that a report does not fit. */
void say_no_tree(void);

/* Says on standard output why a call refused a pattern or a report, for a number of the lists. */
void say_refusal(uint32_t number, uint64_t value, struct bytes pattern);

/* Says on standard output that a mark is refused by a pattern with so many marks. */
void say_no_such_mark(uint64_t marks);

/* Says where bytes go wrong of which the first `place` begin what `some` names. */
void say_where(struct bytes bytes, uint64_t place, const char *some);

/* Says a sentence whose first words, up to the colon, are painted. The rest is a format of printf, for what follows it. */
void say_painted(enum paint paint, const char *first, const char *rest, ...) __attribute__((format(printf, 3, 4)));

#endif
