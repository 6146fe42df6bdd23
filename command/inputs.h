/* The pattern and the report that a verb is called with, and a word that may stand behind them. */
#ifndef INPUTS_H
#define INPUTS_H

#include <argp.h>

#include "shared.h"

/* The lines of arguments for verbs that take these, and behind them what else. */
#define INPUTS_ARGUMENTS(behind) "PATTERN REPORT" behind "\n-e PATTERN REPORT" behind
#define INPUTS_HELP                                                                                                                \
    "PATTERN and REPORT are files; - is standard input. Of a pattern file one line end behind the pattern is dropped; a report is " \
    "taken as it is."

struct inputs {
    int may_have_behind;        /* whether the verb takes a word behind the files */
    const char *pattern_itself; /* of -e, or null */
    const char *words[3];       /* the names of the files, the pattern's first if there is no -e, then the word behind them */
    size_t word_count;
    const char *behind; /* the word behind the files, or null */
    struct bytes pattern, report;
};

/* Takes -e, the names of the files and the word behind them. Its input is a struct inputs. */
extern const struct argp inputs_argp;

/* Reads what was named. Of what is too long it reads one byte more than the limit, so that the calls see it and refuse. */
void read_inputs(struct inputs *inputs);

#endif
