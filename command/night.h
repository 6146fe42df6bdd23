/* What a night has to be judged by and to be compared with: a pattern, the file of last night's turns, and the reports. */
#ifndef NIGHT_H
#define NIGHT_H

#include <argp.h>

#include "dimmhalt.h"
#include "shared.h"

#define NIGHT_ARGUMENTS "PATTERN --last FILE REPORT...\n-e PATTERN --last FILE REPORT..."
#define NIGHT_HELP                                                                                                                 \
    "PATTERN, FILE and each REPORT are files; - is standard input, for one of them. Of a pattern file one line end behind the pattern is " \
    "dropped; a report is taken as it is."

#define NIGHT_MOST (DIMMHALT_REPORT_LIMIT + 1) /* one report more than the limit is read, so that the call sees it and refuses */

struct night {
    const char *pattern_itself; /* of -e, or null */
    const char *last_file;
    const char *words[1 + NIGHT_MOST]; /* the names of the files, the pattern's first if there is no -e */
    size_t word_count;                 /* of all words, also of those that have no place there */
    struct bytes pattern, last, row;   /* the bytes of the pattern, of last night's file, and of all reports */
    const char *const *names;          /* of the reports */
    uint64_t lengths[NIGHT_MOST];
    size_t count; /* of the reports, NIGHT_MOST at most */
};

/* Takes -e, --last and the names of the files. Its input is a struct night. */
extern const struct argp night_argp;

/* Reads what was named. Of what is too long it reads one byte more than the limit. */
void read_night(struct night *night);

#endif
