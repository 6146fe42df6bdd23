#include "inputs.h"

#include "dimmhalt.h"
#include "files.h"
#include "pattern.h"

static uint8_t report_room[DIMMHALT_TEXT_LIMIT + 1];

static size_t count_files(const struct inputs *inputs) { return inputs->pattern_itself == NULL ? 2 : 1; }

static void take_word(struct inputs *inputs, const char *word, struct argp_state *state) {
    size_t most = inputs->may_have_behind ? 3 : 2;
    if (inputs->word_count == most) argp_error(state, "too many arguments");
    inputs->words[inputs->word_count++] = word;
}

/* Where the verb takes no word behind the files, one too many is a second pattern. */
static void take_behind(struct inputs *inputs, struct argp_state *state) {
    size_t files = count_files(inputs);
    if (inputs->word_count <= files) return;
    if (!inputs->may_have_behind) argp_error(state, "a pattern is given twice");
    if (inputs->word_count > files + 1) argp_error(state, "too many arguments");
    inputs->behind = inputs->words[files];
}

static void check_inputs(struct inputs *inputs, struct argp_state *state) {
    size_t files = count_files(inputs);
    take_behind(inputs, state);
    if (inputs->word_count + 1 == files) argp_error(state, "the report is missing");
    if (inputs->word_count + 2 == files) argp_error(state, "pattern and report are missing");
    if (files == 2 && is_standard_input(inputs->words[0]) && is_standard_input(inputs->words[1])) {
        argp_error(state, "pattern and report cannot both be standard input");
    }
}

static error_t parse_input(int key, char *word, struct argp_state *state) {
    struct inputs *inputs = state->input;
    switch (key) {
    case PATTERN_KEY: take_pattern_itself(&inputs->pattern_itself, word, state); return 0;
    case ARGP_KEY_ARG: take_word(inputs, word, state); return 0;
    case ARGP_KEY_END: check_inputs(inputs, state); return 0;
    default: return ARGP_ERR_UNKNOWN;
    }
}

static const struct argp_option options[] = {PATTERN_OPTION, {0}};
const struct argp inputs_argp = {options, parse_input, NULL, NULL, NULL, NULL, NULL};

void read_inputs(struct inputs *inputs) {
    inputs->pattern = read_pattern(inputs->pattern_itself, inputs->words[0]);
    inputs->report.first = report_room;
    inputs->report.length = read_file(inputs->words[count_files(inputs) - 1], report_room, sizeof report_room);
}
