#include "progress.h"

#include <stdio.h>
#include <unistd.h>

#include "quote.h"

#define FEW 50

static int width = 0; /* of the line that stands there */

void show_progress(size_t read, size_t all) {
    char read_room[GROUPED_MOST], all_room[GROUPED_MOST];
    if (all < FEW || !isatty(STDERR_FILENO)) return;
    width = fprintf(stderr, "\rdimmhalt: %s of %s reports read", grouped(read, read_room), grouped(all, all_room)) - 1;
}

void end_progress(void) {
    if (width > 0) fprintf(stderr, "\r%*s\r", width, "");
    width = 0;
}
