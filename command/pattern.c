#include "pattern.h"

#include <string.h>

#include "files.h"

static uint8_t room[DIMMHALT_PATTERN_LIMIT + 2]; /* one for the line end that is dropped, one past the limit */

void take_pattern_itself(const char **itself, const char *word, struct argp_state *state) {
    if (*itself != NULL) argp_error(state, "a pattern is given twice");
    *itself = word;
}

static struct bytes read_pattern_file(const char *name) {
    struct bytes pattern = {room, read_file(name, room, sizeof room)};
    if (pattern.length > 0 && room[pattern.length - 1] == '\n') pattern.length--;
    return pattern;
}

struct bytes read_pattern(const char *itself, const char *file) {
    if (itself == NULL) return read_pattern_file(file);
    return (struct bytes){(const uint8_t *)itself, strlen(itself)};
}

void stop_at_reading(const struct reading *reading) {
    static const char *const names[DIMMHALT_READ_FIGURES] = {"value", "positions", "marks"};
    stop_at_answer("dimmhalt_read", reading->number, names, reading->figures, DIMMHALT_READ_FIGURES);
}

/* Whether the call can have answered so: of a refusal, only the place of a mistake is not 0. */
static int is_possible(const struct reading *reading, struct bytes pattern) {
    uint64_t value = reading->figures[READ_VALUE], positions = reading->figures[READ_POSITIONS], marks = reading->figures[READ_MARKS];
    switch (reading->number) {
    case DIMMHALT_ANSWERED: return value == 0 && positions <= DIMMHALT_POSITION_LIMIT && marks <= DIMMHALT_MARK_LIMIT;
    case DIMMHALT_NOT_A_PATTERN: return value <= pattern.length && positions == 0 && marks == 0;
    case DIMMHALT_PATTERN_TOO_LONG:
    case DIMMHALT_NESTED_TOO_DEEP:
    case DIMMHALT_TOO_MANY_POSITIONS:
    case DIMMHALT_TOO_MANY_MARKS: return value == 0 && positions == 0 && marks == 0;
    default: return 0;
    }
}

struct reading ask_reading(struct bytes pattern) {
    struct reading reading = {.number = 0};
    reading.number = dimmhalt_read(pattern.first, pattern.length, reading.figures, DIMMHALT_READ_FIGURES);
    if (!is_possible(&reading, pattern)) stop_at_reading(&reading);
    return reading;
}
