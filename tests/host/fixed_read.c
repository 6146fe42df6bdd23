/* The reading of patterns held to examples and to the limits, with `out` of every length up to three more than the figures. */
#include "fixed.h"

/* Frees the pattern. */
static void hold_read(const char *what, struct row pattern, uint32_t number, uint64_t value, uint64_t positions, uint64_t marks)
{
    const uint64_t figures[DIMMHALT_READ_FIGURES] = {value, positions, marks};
    size_t length;
    for (length = 0; length <= DIMMHALT_READ_FIGURES + 3; length++) {
        struct asked asked = nothing_asked(READ);
        struct left left = nothing_left(number);
        replace_row(&asked.inputs[PATTERN], copy_of(pattern));
        replace_row(&asked.lent[OUT], dirty_out(length));
        replace_row(&left.lent[OUT], out_with(length, figures, DIMMHALT_READ_FIGURES));
        hold(what, asked, left);
    }
    free_row(pattern);
}

static void hold_pattern(const char *pattern, uint64_t positions, uint64_t marks)
{
    hold_read(pattern, string(pattern), DIMMHALT_ANSWERED, 0, positions, marks);
}

static void hold_patterns(void)
{
    hold_pattern("()", 0, 0);
    hold_pattern("a", 1, 0);
    hold_pattern("a*", 1, 1);
    hold_pattern("()+", 0, 1);
    hold_pattern("(a*)*", 1, 2);
    hold_pattern("a|a", 2, 2);
    hold_pattern("(a|())+", 1, 3);
    hold_pattern("(a|ab)b?", 4, 3);
    hold_pattern("(a|b|c)", 3, 3);
    hold_pattern("a.[b-d]\\*", 4, 0);
    hold_pattern("((a))", 1, 0);
    hold_read("bytes 0, 10 and 255", bytes_of("\0\n[\377]*", 6), DIMMHALT_ANSWERED, 0, 3, 1);
}

static void hold_places(void)
{
    size_t at;
    for (at = 0; at < MISTAKES; at++) {
        hold_read(mistakes[at].bytes, string(mistakes[at].bytes), DIMMHALT_NOT_A_PATTERN, mistakes[at].place, 0, 0);
    }
}

static void hold_limits(void)
{
    hold_read("() 256 times", wrapped(256, "()", "", ""), DIMMHALT_ANSWERED, 0, 0, 0);
    hold_read("() 257 times", wrapped(257, "()", "", ""), DIMMHALT_PATTERN_TOO_LONG, 0, 0, 0);
    hold_read("a million bytes", wrapped(1000000, "a", "", ""), DIMMHALT_PATTERN_TOO_LONG, 0, 0, 0);
    hold_read("513 bytes that are no pattern", wrapped(513, "(", "", ""), DIMMHALT_PATTERN_TOO_LONG, 0, 0, 0);
    hold_read("512 open groups", wrapped(512, "(", "", ""), DIMMHALT_NOT_A_PATTERN, 512, 0, 0);
    hold_read("64 groups", wrapped(64, "(", "a", ")"), DIMMHALT_ANSWERED, 0, 1, 0);
    hold_read("65 groups", wrapped(65, "(", "a", ")"), DIMMHALT_NESTED_TOO_DEEP, 0, 0, 0);
    hold_read("65 groups, one not closed", wrapped(65, "(", "(a", ")"), DIMMHALT_NOT_A_PATTERN, 132, 0, 0);
    hold_read("65 groups, one closed twice", wrapped(65, "(", "a)", ")"), DIMMHALT_NOT_A_PATTERN, 131, 0, 0);
    hold_read("65 groups with a letter and a repeated one in each", wrapped(65, "(a*", "a", ")"), DIMMHALT_NESTED_TOO_DEEP, 0, 0, 0);
    hold_read("64 positions", wrapped(64, "a", "", ""), DIMMHALT_ANSWERED, 0, 64, 0);
    hold_read("65 positions", wrapped(65, "a", "", ""), DIMMHALT_TOO_MANY_POSITIONS, 0, 0, 0);
    hold_read("65 positions and marks", wrapped(65, "a*", "", ""), DIMMHALT_TOO_MANY_POSITIONS, 0, 0, 0);
    hold_read("64 marks", wrapped(63, "(", "a?", ")?"), DIMMHALT_ANSWERED, 0, 1, 64);
    hold_read("65 marks", wrapped(64, "(", "a?", ")?"), DIMMHALT_TOO_MANY_MARKS, 0, 0, 0);
    hold_read("64 positions and marks", wrapped(64, "a?", "", ""), DIMMHALT_ANSWERED, 0, 64, 64);
}

void hold_reads(void)
{
    hold_patterns();
    hold_places();
    hold_limits();
}
