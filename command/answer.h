/* The answer of dimmhalt_first_tree on a pattern and a report: asked for, looked at, and said. */
#ifndef ANSWER_H
#define ANSWER_H

#include "inputs.h"
#include "outline.h"
#include "words.h"

/* The answers that are trees. */
#define ONE_TREE "the report fits the pattern, in exactly one way"
#define SEVERAL_TREES "the report fits the pattern, but it could mean something else"

/* The lines of a help for the numbers that can be answered. */
#define ANSWERS_HELP                                                      \
    HELP_ANSWER(DIMMHALT_ANSWERED, STATUS_ONE_TREE, ONE_TREE)             \
    HELP_ANSWER(DIMMHALT_ANSWERED, STATUS_SEVERAL_TREES, SEVERAL_TREES)   \
    HELP_ANSWER(DIMMHALT_NO_TREE, STATUS_NO_TREE, NO_TREE)                \
    REFUSALS(HELP_REFUSAL)

struct answer {
    uint32_t number;
    uint64_t value, flag;
    struct outline outline; /* of the tree, with number 0 */
};

/* Asks for the first tree. An answer that cannot be ends the program. */
struct answer ask(const struct inputs *inputs);

/* Says the answer in words. Where there are several trees, `of_first` is said behind it: which of them is meant below. */
void say_answer(const struct answer *answer, const struct inputs *inputs, const char *of_first);

/* Prints the raw line of the answer. */
void print_answer(const struct answer *answer);

#endif
