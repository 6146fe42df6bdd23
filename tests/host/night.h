/* Nights for the fixed cases of the sheet, and what should come of them. */
#ifndef NIGHT_H
#define NIGHT_H

#include "fixed.h"

/* A night of no reports with last night's turns, one number a mark. Lent are a record a mark, so much room, and two cells, two sheet bytes and
   one figure more than are asked for. Takes the pattern. */
struct asked new_night(struct row pattern, struct row last, size_t room);

/* The same report so many times. Takes the report. */
void add_reports(struct asked *night, size_t times, struct row report);

/* What a night leaves that is not refused: the sheet, the table, and what stands at the front of the room. Takes the rows. */
struct left sheet_left(const struct asked *night, struct row sheet, struct row table, struct row room);

/* What a night leaves that is refused. */
struct left refusal_left(const struct asked *night, uint32_t number, uint64_t value);

/* One row behind the other. Frees both. */
struct row joined(struct row one, struct row other);

#endif
