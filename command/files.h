/* The files that a verb is called with; - is standard input. */
#ifndef FILES_H
#define FILES_H

#include <stddef.h>
#include <stdint.h>

int is_standard_input(const char *name);

/* A name as messages say it. */
const char *shown_name(const char *name);

/* Reads a file, but no more than `most` bytes of it, and says how many. A file that cannot be read ends the program. */
size_t read_file(const char *name, uint8_t *room, size_t most);

#endif
