/* The answer of dimmhalt_sheet on a night: asked for, and looked at. */
#ifndef SHEETED_H
#define SHEETED_H

#include "dimmhalt.h"
#include "last.h"
#include "night.h"

struct sheeted {
    uint32_t number;
    uint64_t value;
    size_t marks;
    struct bytes sheet;                         /* with number 0, its bytes, */
    uint64_t answers[DIMMHALT_REPORT_LIMIT];    /* the number of each report, */
    const struct dimmhalt_record *table;        /* the record of each mark, */
    int64_t changes[DIMMHALT_MARK_LIMIT];       /* and its change */
};

/* Asks for the sheet of a night under a pattern that has so many marks. An answer that cannot be ends the program. */
void ask_sheet(struct sheeted *sheeted, const struct night *night, const struct last *last, size_t marks);

#endif
