#include "answer.h"

#include <inttypes.h>
#include <stdio.h>

#include "dimmhalt.h"

/* Lent to the call, and enough for every pattern and report. */
static uint64_t cells[DIMMHALT_MOST_CELLS];
static uint16_t tree[DIMMHALT_MOST_ROOM];

/* Whether the call can have answered so: a number that comes where enough is lent, with a value and a flag that go with it. */
static int is_possible(struct answer *answer, const struct inputs *inputs) {
    switch (answer->number) {
    case DIMMHALT_ANSWERED: return answer->flag <= 1 && take_tree(&answer->outline, tree, answer->value, inputs->report);
    case DIMMHALT_NOT_A_PATTERN: return answer->flag == 0 && answer->value <= inputs->pattern.length;
    case DIMMHALT_NO_TREE: return answer->flag == 0 && answer->value <= inputs->report.length;
    case DIMMHALT_PATTERN_TOO_LONG:
    case DIMMHALT_TEXT_TOO_LONG:
    case DIMMHALT_NESTED_TOO_DEEP:
    case DIMMHALT_TOO_MANY_POSITIONS:
    case DIMMHALT_TOO_MANY_MARKS: return answer->flag == 0 && answer->value == 0;
    default: return 0;
    }
}

struct answer ask(const struct inputs *inputs) {
    static const char *const names[DIMMHALT_FIRST_TREE_FIGURES] = {"value", "flag"};
    uint64_t out[DIMMHALT_FIRST_TREE_FIGURES] = {0};
    struct answer answer = {.number = 0};
    answer.number = dimmhalt_first_tree(inputs->pattern.first, inputs->pattern.length, inputs->report.first, inputs->report.length, cells,
                                        DIMMHALT_MOST_CELLS, tree, DIMMHALT_MOST_ROOM, out, DIMMHALT_FIRST_TREE_FIGURES);
    answer.value = out[0];
    answer.flag = out[1];
    if (!is_possible(&answer, inputs)) stop_at_answer("dimmhalt_first_tree", answer.number, names, out, DIMMHALT_FIRST_TREE_FIGURES);
    return answer;
}

static void say_fits(uint64_t flag, const char *of_first) {
    if (flag == 0) {
        say_painted(GREEN, "One tree", ONE_TREE ".");
    } else {
        say_painted(YELLOW, "More than one tree", SEVERAL_TREES ".%s", of_first);
    }
}

void say_answer(const struct answer *answer, const struct inputs *inputs, const char *of_first) {
    if (answer->number == DIMMHALT_ANSWERED) {
        say_fits(answer->flag, of_first);
    } else if (answer->number == DIMMHALT_NO_TREE) {
        say_no_tree();
        say_where(inputs->report, answer->value, "a report that fits");
    } else {
        say_refusal(answer->number, answer->value, inputs->pattern);
    }
}

void print_answer(const struct answer *answer) {
    printf("ANSWER %" PRIu32 " %" PRIu64 " %" PRIu64 "\n", answer->number, answer->value, answer->flag);
}
