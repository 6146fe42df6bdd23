/* The verb sheet: what do the reports of a night come to, and how is that beside last night? */
#include <inttypes.h>
#include <stdio.h>

#include "dimmhalt.h"
#include "files.h"
#include "last.h"
#include "night.h"
#include "pattern.h"
#include "progress.h"
#include "quote.h"
#include "sheeted.h"
#include "verbs.h"
#include "words.h"

struct call {
    struct night night;
    int wants_raw;
};

/* Keys of options that have no letter. */
enum { RAW_KEY = 256 };

static const struct argp_option options[] = {
    {"raw", RAW_KEY, NULL, 0, "print the sheet itself, in place of words", 0},
    {0},
};

static const char help[] =
    "Says for each mark of PATTERN how often it read text in the reports of a night, how much, and how that is beside last night.\v" NIGHT_HELP
    " Up to 1,000 reports can be given.\n\n"
    "The table has a line for each mark: how many of its turns read text, how many bytes these read, how many the longest of them read, and "
    "how many turns more or fewer than last night there were. All reports that fit are counted, each by its first tree; what a mark is and "
    "which turns are counted, `dimmhalt turns --help' says. The reports that do not fit or are refused are listed below the table. Whether a "
    "report could mean something else as well is not said here: `dimmhalt judge' says it.\n\n"
    LAST_HELP "\n\n"
    "--raw prints the sheet of dimmhalt_sheet in include/dimmhalt.h and nothing else: the number of reports, and for each the number of its "
    "answer; the number of marks, and for each its turns, bytes and longest turn; the number of marks, and for each its change; one number "
    "a line. Where there is no sheet it prints nothing, and standard error says why.\n\n"
    "Number of the answer, exit status, and what they mean; of several reports 8 comes before 2 and 9:\n"
    HELP_ANSWER(DIMMHALT_ANSWERED, STATUS_ALL_FIT, "every report fits the pattern")
    HELP_ANSWER(DIMMHALT_NO_TREE, STATUS_NO_TREE, NO_TREE)
    REFUSALS(HELP_REFUSAL) ROOM_REFUSAL(HELP_REFUSAL) NIGHT_REFUSALS(HELP_NIGHT_REFUSAL) STATUSES_HELP;

static error_t parse_option(int key, char *word, struct argp_state *state) {
    struct call *call = state->input;
    (void)word;
    switch (key) {
    case ARGP_KEY_INIT: state->child_inputs[0] = &call->night; return 0;
    case RAW_KEY: call->wants_raw = 1; return 0;
    default: return ARGP_ERR_UNKNOWN;
    }
}

static const struct argp_child children[] = {{&night_argp, 0, NULL, 0}, {0}};
static const struct argp sheet_argp = {options, parse_option, NIGHT_ARGUMENTS, help, children, NULL, NULL};

/* Says why the pattern is refused: on standard error if a raw sheet is wanted, since standard output then has nothing but a sheet. */
static int refuse_pattern(const struct call *call, const struct reading *reading) {
    int status = status_of(reading->number, 0);
    if (call->wants_raw) stop(status, "pattern", "refused, number %" PRIu32 ": %s", reading->number, why_refused(reading->number));
    say_refusal(reading->number, reading->figures[READ_VALUE], call->night.pattern);
    return status;
}

/* The whole sheet is refused, which only a wrong call brings about. */
static void stop_at_sheet(const struct sheeted *sheeted, const struct last *last) {
    if (sheeted->number == DIMMHALT_WRONG_MARKS) stop_at_count(last, sheeted->marks);
    if (sheeted->number == DIMMHALT_LAST_TOO_LARGE) stop_at_too_large(last);
    stop(STATUS_WRONG_CALL, "reports", REFUSED(DIMMHALT_WRONG_LENGTHS) "%s", why_refused(DIMMHALT_WRONG_LENGTHS));
}

static size_t count_fitting(const struct sheeted *sheeted, size_t reports) {
    size_t count = 0;
    for (size_t at = 0; at < reports; at++) count += sheeted->answers[at] == DIMMHALT_ANSWERED;
    return count;
}

static void say_reports(size_t reports, size_t fitting) {
    char room[GROUPED_MOST], fitting_room[GROUPED_MOST], refused_room[GROUPED_MOST], first[sizeof " reports" + GROUPED_MOST];
    size_t refused = reports - fitting;
    snprintf(first, sizeof first, "%s report%s", grouped(reports, room), reports == 1 ? "" : "s");
    say_painted(refused == 0 ? GREEN : RED, first, "%s %s the pattern, %s %s refused.", grouped(fitting, fitting_room),
                fitting == 1 ? "fits" : "fit", grouped(refused, refused_room), refused == 1 ? "is" : "are");
}

#define COLUMN 10

/* The line of a mark. Which part of the pattern it belongs to is a column of its own once a call says where that part stands. */
static void say_mark(uint64_t mark, const struct dimmhalt_record *record, int64_t change) {
    char label[MARK_LABEL_MOST];
    put_mark_label(mark, label);
    printf("%s%s%s%*" PRIu64 "%*" PRIu64 "%*" PRIu64, switch_to(DIM), label, switch_to(PLAIN), COLUMN, record->turns, COLUMN, record->bytes,
           COLUMN, record->longest);
    printf(change == 0 ? "%*" PRId64 "\n" : "%+*" PRId64 "\n", COLUMN, change);
}

static void say_marks(const struct sheeted *sheeted) {
    if (sheeted->marks == 0) {
        puts("\n" NO_MARKS);
        return;
    }
    printf("\n%s%*s%*s%*s%*s%s\n", switch_to(DIM), (int)sizeof MARK_LABEL + 1 + COLUMN, "turns", COLUMN, "bytes", COLUMN, "longest", COLUMN,
           "change", switch_to(PLAIN));
    for (size_t at = 0; at < sheeted->marks; at++) say_mark(at + 1, &sheeted->table[at], sheeted->changes[at]);
}

/* The line of a report that is not counted: its name, and what judge says first. */
static void say_refused(const char *name, uint64_t number) {
    print_escaped(stdout, shown_name(name));
    fputs(": ", stdout);
    if (number == DIMMHALT_NO_TREE) {
        say_no_tree();
    } else {
        say_refusal((uint32_t)number, 0, (struct bytes){NULL, 0});
    }
}

static void say_sheet(const struct sheeted *sheeted, const struct night *night) {
    size_t fitting = count_fitting(sheeted, night->count);
    say_reports(night->count, fitting);
    say_marks(sheeted);
    if (fitting < night->count) puts("\nRefused:");
    for (size_t at = 0; at < night->count; at++) {
        if (sheeted->answers[at] != DIMMHALT_ANSWERED) say_refused(night->names[at], sheeted->answers[at]);
    }
}

/* Of several reports one that does not fit decides, then one that is refused. */
static int status_of_night(const struct sheeted *sheeted, size_t reports) {
    int status = STATUS_ALL_FIT;
    for (size_t at = 0; at < reports && status != STATUS_NO_TREE; at++) {
        if (sheeted->answers[at] != DIMMHALT_ANSWERED) status = status_of((uint32_t)sheeted->answers[at], 0);
    }
    return status;
}

int run_sheet(int count, char **words) {
    static struct call call;
    static struct last last;
    static struct sheeted sheeted;
    struct reading reading;
    parse_call(&sheet_argp, 0, count, words, &call);
    read_night(&call.night);
    reading = ask_reading(call.night.pattern);
    if (reading.number == DIMMHALT_ANSWERED) {
        take_last(&last, shown_name(call.night.last_file), call.night.last, reading.figures[READ_MARKS]);
        ask_sheet(&sheeted, &call.night, &last, reading.figures[READ_MARKS]);
    }
    end_progress();
    if (reading.number != DIMMHALT_ANSWERED) return refuse_pattern(&call, &reading);
    if (sheeted.number != DIMMHALT_ANSWERED) stop_at_sheet(&sheeted, &last);
    if (call.wants_raw) {
        fwrite(sheeted.sheet.first, 1, sheeted.sheet.length, stdout);
    } else {
        say_sheet(&sheeted, &call.night);
    }
    return status_of_night(&sheeted, call.night.count);
}
