#include "shared.h"

#include <errno.h>
#include <fcntl.h>
#include <inttypes.h>
#include <signal.h>
#include <stdarg.h>
#include <stdio.h>
#include <stdlib.h>
#include <string.h>
#include <unistd.h>

#include "progress.h"
#include "quote.h"

static int coloured = 0;

void stop(int status, const char *subject, const char *what, ...) {
    va_list words;
    end_progress();
    va_start(words, what);
    fputs("dimmhalt: ", stderr);
    print_escaped(stderr, subject);
    fputs(": ", stderr);
    vfprintf(stderr, what, words);
    fputc('\n', stderr);
    va_end(words);
    exit(status);
}

void stop_at_answer(const char *call, uint64_t number, const char *const *names, const uint64_t *figures, size_t count) {
    end_progress();
    fprintf(stderr, "dimmhalt: internal: %s answered %" PRIu64, call, number);
    for (size_t at = 0; at < count; at++) {
        const char *joint = at == 0 ? " with" : at + 1 == count ? " and" : ",";
        fprintf(stderr, "%s %s %" PRIu64, joint, names[at], figures[at]);
    }
    fputs(", which cannot be\n", stderr);
    exit(STATUS_INTERNAL);
}

/* A standard stream that is closed is opened the wrong way round: no file takes its number, and using it still fails. */
static void fill_closed_stream(int stream) {
    if (fcntl(stream, F_GETFD) != -1 || errno != EBADF) return;
    if (open("/dev/null", stream == STDIN_FILENO ? O_WRONLY : O_RDONLY) != stream) _exit(STATUS_INPUT_OUTPUT);
}

static void check_output(void) {
    int failed = ferror(stdout);
    if (fclose(stdout) == 0 && !failed) return;
    fputs("dimmhalt: standard output: not all could be written\n", stderr);
    _exit(STATUS_INPUT_OUTPUT);
}

static int wants_colour(void) {
    const char *no_colour = getenv("NO_COLOR"), *terminal = getenv("TERM");
    if (no_colour != NULL && no_colour[0] != '\0') return 0;
    return isatty(STDOUT_FILENO) && terminal != NULL && strcmp(terminal, "dumb") != 0;
}

void prepare_streams(void) {
    for (int stream = STDIN_FILENO; stream <= STDERR_FILENO; stream++) fill_closed_stream(stream);
    signal(SIGPIPE, SIG_IGN); /* output that none reads, or past the limit of a file, fails as other output does */
    signal(SIGXFSZ, SIG_IGN);
    if (atexit(check_output) != 0) stop(STATUS_INTERNAL, "internal", "no handler for the exit could be set");
    coloured = wants_colour();
}

void parse_call(const struct argp *argp, unsigned flags, int count, char **words, void *input) {
    error_t failed = argp_parse(argp, count, words, flags, NULL, input);
    if (failed != 0) stop(STATUS_INTERNAL, "internal", "%s", strerror(failed));
}

const char *switch_to(enum paint paint) {
    static const char *const codes[] = {"\033[0m", "\033[2m", "\033[1;32m", "\033[1;33m", "\033[1;31m"};
    return coloured ? codes[paint] : "";
}
