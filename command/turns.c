/* The verb turns: how many turns of each mark read text? */
#include <inttypes.h>
#include <stdio.h>
#include <stdlib.h>
#include <string.h>

#include "answer.h"
#include "dimmhalt.h"
#include "inputs.h"
#include "pattern.h"
#include "quote.h"
#include "verbs.h"

#define COUNT_WIDTH 6 /* two spaces, and the digits of the largest count */

struct call {
    struct inputs inputs;
    uint64_t mark; /* if the inputs have a word behind them */
    int wants_raw;
};

/* The counts of the marks from `first` to `last`, each at the number of its mark. */
struct counts {
    uint64_t marks; /* how many the pattern has */
    uint64_t first, last;
    uint64_t of[DIMMHALT_MARK_LIMIT + 1];
};

/* Keys of options that have no letter. */
enum { RAW_KEY = 256 };

static const struct argp_option options[] = {
    {"raw", RAW_KEY, NULL, 0, "print the answer and the counts as numbers, in place of words", 0},
    {0},
};

static const char help[] =
    "Says for each mark of PATTERN, or for MARK alone, how many of its turns read text in the first tree of REPORT.\v" INPUTS_HELP
    " MARK is a number in decimal digits.\n\n"
    "Marks are numbered from 1 by where their part starts in the pattern, the outer before the inner. Each part with *, + or ? has a mark, "
    "and so has each branch where | parts two or more; each time that a branch is taken is a turn of it. A turn is counted if it read at "
    "least one byte; one that read nothing is not. So a mark whose only turn read nothing has 0, as mark 1 of ((row)*)+ has on an empty "
    "report, and so has a mark without a turn.\n\n"
    "--raw prints ANSWER with number, value and flag, and if the number is 0 a line TURNS for each mark, or for MARK alone: the mark and "
    "its count. Numbers, values and flags are those of dimmhalt_first_tree in include/dimmhalt.h, and 10, 0 and 0 for a mark that the "
    "pattern does not have.\n\n"
    "Number of the answer, exit status, and what they mean:\n"
    ANSWERS_HELP HELP_NO_SUCH_MARK STATUSES_HELP;

static int is_number(const char *word) { return *word != '\0' && word[strspn(word, "0123456789")] == '\0'; }

/* Who names a file of the pattern beside -e has the report stand where MARK would. */
static void refuse_word(const struct call *call, struct argp_state *state) {
    char shown[60];
    struct bytes word = {(const uint8_t *)call->inputs.behind, strlen(call->inputs.behind)};
    const char *hint = call->inputs.pattern_itself == NULL ? "" : "; is a pattern given twice?";
    argp_error(state, "MARK is a number, not %.*s%s", (int)quote(word, sizeof shown, shown), shown, hint);
}

/* Of a number that is too large strtoull makes the largest, which is no mark either. */
static void take_mark(struct call *call, struct argp_state *state) {
    if (call->inputs.behind == NULL) return;
    if (!is_number(call->inputs.behind)) refuse_word(call, state);
    call->mark = strtoull(call->inputs.behind, NULL, 10);
}

static error_t parse_option(int key, char *word, struct argp_state *state) {
    struct call *call = state->input;
    (void)word;
    switch (key) {
    case ARGP_KEY_INIT: state->child_inputs[0] = &call->inputs; return 0;
    case RAW_KEY: call->wants_raw = 1; return 0;
    case ARGP_KEY_END: take_mark(call, state); return 0;
    default: return ARGP_ERR_UNKNOWN;
    }
}

static const struct argp_child children[] = {{&inputs_argp, 0, NULL, 0}, {0}};
static const struct argp turns_argp = {options, parse_option, INPUTS_ARGUMENTS(" [MARK]"), help, children, NULL, NULL};

/* How many marks has a pattern that was read before? */
static uint64_t ask_marks(struct bytes pattern) {
    struct reading reading = ask_reading(pattern);
    if (reading.number != DIMMHALT_ANSWERED) stop_at_reading(&reading);
    return reading.figures[READ_MARKS];
}

/* How many turns of a mark read text? Each reads bytes of its own, so there are no more than the report has. */
static uint64_t ask_turns(const struct outline *outline, uint64_t mark) {
    static const char *const names[DIMMHALT_TURNS_FIGURES] = {"count"};
    uint64_t out[DIMMHALT_TURNS_FIGURES] = {0};
    uint32_t number = dimmhalt_turns(outline->tree, outline->length, mark, out, DIMMHALT_TURNS_FIGURES);
    int is_possible = number == DIMMHALT_ANSWERED && out[0] <= outline->report.length;
    if (!is_possible) stop_at_answer("dimmhalt_turns", number, names, out, DIMMHALT_TURNS_FIGURES);
    return out[0];
}

/* Asks for all counts before any is printed. A mark that the pattern does not have makes another answer. */
static void ask_counts(struct answer *answer, const struct call *call, struct counts *counts) {
    int wants_one = call->inputs.behind != NULL;
    counts->marks = ask_marks(call->inputs.pattern);
    counts->first = wants_one ? call->mark : 1;
    counts->last = wants_one ? call->mark : counts->marks;
    if (counts->first < 1 || counts->last > counts->marks) {
        *answer = (struct answer){.number = DIMMHALT_NO_SUCH_MARK};
        return;
    }
    for (uint64_t mark = counts->first; mark <= counts->last; mark++) counts->of[mark] = ask_turns(&answer->outline, mark);
}

static void say_count(uint64_t mark, uint64_t count) {
    char label[MARK_LABEL_MOST];
    put_mark_label(mark, label);
    printf("%s%s%s%*" PRIu64 "\n", switch_to(DIM), label, switch_to(PLAIN), COUNT_WIDTH, count);
}

static void say_counts(const struct counts *counts) {
    puts(counts->marks == 0 ? "\n" NO_MARKS : "\nTurns that read text:");
    for (uint64_t mark = counts->first; mark <= counts->last; mark++) say_count(mark, counts->of[mark]);
}

static void say_turns(const struct answer *answer, const struct call *call, const struct counts *counts) {
    if (answer->number == DIMMHALT_NO_SUCH_MARK) {
        say_no_such_mark(counts->marks);
    } else {
        say_answer(answer, &call->inputs, " The counts below are those of the first tree.");
    }
    if (answer->number == DIMMHALT_ANSWERED) say_counts(counts);
}

static void print_raw(const struct answer *answer, const struct counts *counts) {
    print_answer(answer);
    if (answer->number != DIMMHALT_ANSWERED) return;
    for (uint64_t mark = counts->first; mark <= counts->last; mark++) printf("TURNS %" PRIu64 " %" PRIu64 "\n", mark, counts->of[mark]);
}

int run_turns(int count, char **words) {
    struct call call = {.inputs = {.may_have_behind = 1}};
    struct counts counts = {.marks = 0};
    struct answer answer;
    parse_call(&turns_argp, 0, count, words, &call);
    read_inputs(&call.inputs);
    answer = ask(&call.inputs);
    if (answer.number == DIMMHALT_ANSWERED) ask_counts(&answer, &call, &counts);
    if (call.wants_raw) {
        print_raw(&answer, &counts);
    } else {
        say_turns(&answer, &call, &counts);
    }
    return status_of(answer.number, answer.flag);
}
