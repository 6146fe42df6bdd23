#include "files.h"

#include <errno.h>
#include <fcntl.h>
#include <string.h>
#include <unistd.h>

#include "shared.h"

int is_standard_input(const char *name) { return strcmp(name, "-") == 0; }

const char *shown_name(const char *name) { return is_standard_input(name) ? "standard input" : name; }

/* What cannot be read at all is a wrong call; a read that breaks off is not the caller's mistake. */
static size_t read_some(int file, const char *name, uint8_t *room, size_t most) {
    ssize_t got;
    do got = read(file, room, most);
    while (got < 0 && errno == EINTR);
    if (got < 0) stop(errno == EISDIR ? STATUS_WRONG_CALL : STATUS_INPUT_OUTPUT, shown_name(name), "%s", strerror(errno));
    return (size_t)got;
}

size_t read_file(const char *name, uint8_t *room, size_t most) {
    int file = is_standard_input(name) ? STDIN_FILENO : open(name, O_RDONLY | O_NOCTTY);
    size_t length = 0, got = 1;
    if (file < 0) stop(STATUS_WRONG_CALL, shown_name(name), "%s", strerror(errno));
    while (got > 0 && length < most) {
        got = read_some(file, name, room + length, most - length);
        length += got;
    }
    if (file != STDIN_FILENO) close(file);
    return length;
}
