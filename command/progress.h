/* A line on a terminal that says how far the reading of many reports has come. Where standard error is no terminal there is none. */
#ifndef PROGRESS_H
#define PROGRESS_H

#include <stddef.h>

/* Says how many of all reports are read, in the place of what it said before; nothing if they are few. */
void show_progress(size_t read, size_t all);

/* Takes the line away, if there is one. */
void end_progress(void);

#endif
