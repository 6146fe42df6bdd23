/* The verb judge: does a report fit a pattern, in one way or in several? */
#include <stdio.h>

#include "answer.h"
#include "dimmhalt.h"
#include "inputs.h"
#include "outline.h"
#include "quote.h"
#include "verbs.h"

struct call {
    struct inputs inputs;
    int wants_tree, wants_raw;
};

/* Keys of options that have no letter. */
enum { TREE_KEY = 256, RAW_KEY };

static const struct argp_option options[] = {
    {"tree", TREE_KEY, NULL, 0, "print the first tree as well, as an outline", 0},
    {"raw", RAW_KEY, NULL, 0, "print the answer as numbers, and the first tree as tokens, in place of words", 0},
    {0},
};

static const char help[] =
    "Says whether REPORT fits PATTERN, in exactly one way or in several.\v" INPUTS_HELP
    "\n\n"
    "The outline has a line for the whole report, then one for each branch that was taken and each turn of a repeated part: its mark, "
    "and what it read, indented by the marks around it.\n\n"
    "--raw prints ANSWER with number, value and flag, and if the number is 0 a line TREE, where o3 opens mark 3, c3 closes it and b97 "
    "is the byte 97. Numbers, values and flags are those of dimmhalt_first_tree in include/dimmhalt.h.\n\n"
    "Number of the answer, exit status, and what they mean:\n"
    ANSWERS_HELP STATUSES_HELP;

static void take_end(const struct call *call, struct argp_state *state) {
    if (call->wants_tree && call->wants_raw) argp_error(state, "--tree and --raw exclude each other");
}

static error_t parse_option(int key, char *word, struct argp_state *state) {
    struct call *call = state->input;
    (void)word;
    switch (key) {
    case ARGP_KEY_INIT: state->child_inputs[0] = &call->inputs; return 0;
    case TREE_KEY: call->wants_tree = 1; return 0;
    case RAW_KEY: call->wants_raw = 1; return 0;
    case ARGP_KEY_END: take_end(call, state); return 0;
    default: return ARGP_ERR_UNKNOWN;
    }
}

static const struct argp_child children[] = {{&inputs_argp, 0, NULL, 0}, {0}};
static const struct argp judge_argp = {options, parse_option, INPUTS_ARGUMENTS(""), help, children, NULL, NULL};

static void say_judged(const struct answer *answer, const struct call *call) {
    say_answer(answer, &call->inputs, call->wants_tree ? " The tree below is the first." : "");
    if (answer->number == DIMMHALT_ANSWERED && call->wants_tree) {
        putchar('\n');
        print_outline(&answer->outline);
    }
}

static void print_token(uint16_t token) {
    char word[2 + NUMBER_MOST] = " o";
    if (token >= DIMMHALT_BYTE(0)) {
        word[1] = 'b';
        token -= DIMMHALT_BYTE(0);
    } else if (token >= DIMMHALT_CLOSES(0)) {
        word[1] = 'c';
        token -= DIMMHALT_CLOSES(0);
    }
    fwrite(word, 1, 2 + put_number(token, word + 2), stdout);
}

static void print_raw(const struct answer *answer) {
    print_answer(answer);
    if (answer->number != DIMMHALT_ANSWERED) return;
    printf("TREE");
    for (size_t at = 0; at < answer->outline.length; at++) print_token(answer->outline.tree[at]);
    putchar('\n');
}

int run_judge(int count, char **words) {
    struct call call = {.wants_tree = 0, .wants_raw = 0};
    struct answer answer;
    parse_call(&judge_argp, 0, count, words, &call);
    read_inputs(&call.inputs);
    answer = ask(&call.inputs);
    if (call.wants_raw) {
        print_raw(&answer);
    } else {
        say_judged(&answer, &call);
    }
    return status_of(answer.number, answer.flag);
}
