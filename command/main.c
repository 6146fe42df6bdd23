/* The command dimmhalt: finds the verb and hands the words behind it over. */
#include <stdio.h>
#include <string.h>

#include "dimmhalt.h"
#include "quote.h"
#include "shared.h"
#include "verbs.h"

struct verb {
    const char *name, *called, *summary; /* its name, alone and behind the program's, and what it does */
    int (*run)(int count, char **words);
};

#define VERB_OF(name, summary) {#name, "dimmhalt " #name, summary, run_##name},
static const struct verb verbs[] = {VERBS(VERB_OF)};
#define VERB_COUNT (sizeof verbs / sizeof *verbs)

const char *argp_program_version = "dimmhalt " DIMMHALT_VERSION;

struct choice {
    const struct verb *verb;
    int at; /* which word it is */
};

static const struct verb *find_verb(const char *name) {
    for (size_t at = 0; at < VERB_COUNT; at++) {
        if (strcmp(verbs[at].name, name) == 0) return &verbs[at];
    }
    return NULL;
}

static void take_verb(struct choice *choice, const char *word, struct argp_state *state) {
    char shown[60];
    struct bytes bytes = {(const uint8_t *)word, strlen(word)};
    choice->verb = find_verb(word);
    choice->at = state->next - 1;
    if (choice->verb == NULL) argp_error(state, "there is no verb %.*s", (int)quote(bytes, sizeof shown, shown), shown);
    state->next = state->argc; /* the rest is the verb's */
}

static error_t parse_word(int key, char *word, struct argp_state *state) {
    switch (key) {
    case ARGP_KEY_ARG: take_verb(state->input, word, state); return 0;
    case ARGP_KEY_NO_ARGS: argp_usage(state); return 0;
    default: return ARGP_ERR_UNKNOWN;
    }
}

/* The verbs as argp lists them in the help: options by form, that only document. */
static void list_verbs(struct argp_option *list) {
    list[0] = (struct argp_option){.doc = "Verbs, each with a --help of its own:", .group = 1};
    for (size_t at = 0; at < VERB_COUNT; at++) {
        list[at + 1] = (struct argp_option){verbs[at].name, 0, NULL, OPTION_DOC | OPTION_NO_USAGE, verbs[at].summary, 1};
    }
    list[VERB_COUNT + 1] = (struct argp_option){0};
}

int main(int count, char **words) {
    static char name[] = "dimmhalt";
    char *no_words[] = {name, NULL};
    struct argp_option list[VERB_COUNT + 2];
    struct argp argp = {.options = list, .parser = parse_word, .args_doc = "VERB ...", .doc = "Judges reports against patterns."};
    struct choice choice = {NULL, 0};
    argp_err_exit_status = STATUS_WRONG_CALL;
    prepare_streams();
    list_verbs(list);
    if (count == 0) {
        count = 1;
        words = no_words;
    }
    words[0] = name;
    parse_call(&argp, ARGP_IN_ORDER, count, words, &choice);
    words[choice.at] = (char *)choice.verb->called;
    return choice.verb->run(count - choice.at, words + choice.at);
}
