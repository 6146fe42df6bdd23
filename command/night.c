#include "night.h"

#include "files.h"
#include "pattern.h"
#include "progress.h"

#define REPORT_MOST (DIMMHALT_TEXT_LIMIT + 1)

static uint8_t last_room[DIMMHALT_SHEET_BYTES + 1];
static uint8_t row_room[NIGHT_MOST * REPORT_MOST];

/* Keys of options that have no letter. The verb has others. */
enum { LAST_KEY = 1000 };

static const struct argp_option options[] = {
    PATTERN_OPTION,
    {"last", LAST_KEY, "FILE", 0, "take last night's turns from FILE", 0},
    {0},
};

static void take_last_file(struct night *night, const char *name, struct argp_state *state) {
    if (night->last_file != NULL) argp_error(state, "--last is given twice");
    night->last_file = name;
}

static void take_word(struct night *night, const char *word) {
    if (night->word_count < 1 + NIGHT_MOST) night->words[night->word_count] = word;
    night->word_count++;
}

/* Sets which of the words are reports; those that are too many are left out. */
static void take_reports(struct night *night, struct argp_state *state) {
    size_t before = night->pattern_itself == NULL ? 1 : 0;
    if (night->word_count < before) argp_error(state, "pattern and reports are missing");
    if (night->word_count == before) argp_error(state, "the reports are missing");
    night->names = night->words + before;
    night->count = night->word_count - before < NIGHT_MOST ? night->word_count - before : NIGHT_MOST;
}

/* Standard input can be read to its end once. */
static void check_standard_input(const struct night *night, struct argp_state *state) {
    const char *const *end = night->names + night->count;
    int named = is_standard_input(night->last_file);
    for (const char *const *word = night->words; word < end; word++) named += is_standard_input(*word);
    if (named > 1) argp_error(state, "only one file can be standard input");
}

static void check_night(struct night *night, struct argp_state *state) {
    take_reports(night, state);
    if (night->last_file == NULL) argp_error(state, "last night's turns are missing: --last FILE");
    check_standard_input(night, state);
}

static error_t parse_night(int key, char *word, struct argp_state *state) {
    struct night *night = state->input;
    switch (key) {
    case PATTERN_KEY: take_pattern_itself(&night->pattern_itself, word, state); return 0;
    case LAST_KEY: take_last_file(night, word, state); return 0;
    case ARGP_KEY_ARG: take_word(night, word); return 0;
    case ARGP_KEY_END: check_night(night, state); return 0;
    default: return ARGP_ERR_UNKNOWN;
    }
}

const struct argp night_argp = {options, parse_night, NULL, NULL, NULL, NULL, NULL};

static void read_reports(struct night *night) {
    night->row = (struct bytes){row_room, 0};
    for (size_t at = 0; at < night->count; at++) {
        show_progress(at, night->count);
        night->lengths[at] = read_file(night->names[at], row_room + night->row.length, REPORT_MOST);
        night->row.length += night->lengths[at];
    }
    show_progress(night->count, night->count);
}

void read_night(struct night *night) {
    night->pattern = read_pattern(night->pattern_itself, night->words[0]);
    night->last.first = last_room;
    night->last.length = read_file(night->last_file, last_room, sizeof last_room);
    read_reports(night);
}
