/* The verdict held to the rules' own examples and to the limits. */
#include "fixed.h"

/* Frees the pattern and the text. */
static void hold_verdict(const char *what, struct row pattern, struct row text, uint32_t wanted)
{
    struct asked asked = nothing_asked(VERDICT);
    replace_row(&asked.inputs[PATTERN], pattern);
    replace_row(&asked.inputs[TEXT], text);
    hold(what, asked, nothing_left(wanted));
}

static void hold_readings(void)
{
    hold_verdict("() and nothing", string("()"), string(""), DIMMHALT_ONE_TREE);
    hold_verdict("a* and nothing", string("a*"), string(""), DIMMHALT_ONE_TREE);
    hold_verdict("()+ and nothing", string("()+"), string(""), DIMMHALT_ONE_TREE);
    hold_verdict("a+ and aa", string("a+"), string("aa"), DIMMHALT_ONE_TREE);
    hold_verdict("(a*)* and a", string("(a*)*"), string("a"), DIMMHALT_ONE_TREE);
    hold_verdict("(a*)* and aa", string("(a*)*"), string("aa"), DIMMHALT_SEVERAL_TREES);
    hold_verdict("(a*)+ and nothing", string("(a*)+"), string(""), DIMMHALT_ONE_TREE);
    hold_verdict("(a*)? and nothing", string("(a*)?"), string(""), DIMMHALT_ONE_TREE);
    hold_verdict("a|a and a", string("a|a"), string("a"), DIMMHALT_SEVERAL_TREES);
    hold_verdict("(a|())+ and a", string("(a|())+"), string("a"), DIMMHALT_ONE_TREE);
    hold_verdict("(a|ab)b? and ab", string("(a|ab)b?"), string("ab"), DIMMHALT_SEVERAL_TREES);
    hold_verdict("a.c and axd", string("a.c"), string("axd"), DIMMHALT_NO_TREE);
    hold_verdict("a.c and a, 10, c", string("a.c"), string("a\nc"), DIMMHALT_ONE_TREE);
    hold_verdict("bytes 0, 10 and 255", bytes_of("\0\n[\377]", 5), bytes_of("\0\n\377", 3), DIMMHALT_ONE_TREE);
}

static void hold_limits(void)
{
    hold_verdict("no pattern", string(""), string(""), DIMMHALT_NOT_A_PATTERN);
    hold_verdict("a**", string("a**"), string("a"), DIMMHALT_NOT_A_PATTERN);
    hold_verdict("() 256 times", wrapped(256, "()", "", ""), string(""), DIMMHALT_ONE_TREE);
    hold_verdict("() 257 times", wrapped(257, "()", "", ""), string(""), DIMMHALT_PATTERN_TOO_LONG);
    hold_verdict("() 257 times and 4,097 letters", wrapped(257, "()", "", ""), wrapped(4097, "a", "", ""), DIMMHALT_PATTERN_TOO_LONG);
    hold_verdict("4,096 letters", string("a*"), wrapped(4096, "a", "", ""), DIMMHALT_ONE_TREE);
    hold_verdict("4,097 letters", string("a*"), wrapped(4097, "a", "", ""), DIMMHALT_TEXT_TOO_LONG);
    hold_verdict("4,097 letters and no pattern", string("("), wrapped(4097, "a", "", ""), DIMMHALT_TEXT_TOO_LONG);
    hold_verdict("4,096 letters in many ways", string("(a|a)*"), wrapped(4096, "a", "", ""), DIMMHALT_SEVERAL_TREES);
    hold_verdict("a million bytes of pattern", wrapped(1000000, "a", "", ""), string("a"), DIMMHALT_PATTERN_TOO_LONG);
    hold_verdict("a million bytes of text", string("a*"), wrapped(1000000, "a", "", ""), DIMMHALT_TEXT_TOO_LONG);
    hold_verdict("64 groups", wrapped(64, "(", "a", ")"), string("a"), DIMMHALT_ONE_TREE);
    hold_verdict("65 groups", wrapped(65, "(", "a", ")"), string("a"), DIMMHALT_NESTED_TOO_DEEP);
    hold_verdict("() in 63 groups", wrapped(63, "(", "()", ")"), string(""), DIMMHALT_ONE_TREE);
    hold_verdict("() in 64 groups", wrapped(64, "(", "()", ")"), string(""), DIMMHALT_NESTED_TOO_DEEP);
    hold_verdict("255 groups", wrapped(255, "(", "a", ")"), string("a"), DIMMHALT_NESTED_TOO_DEEP);
    hold_verdict("65 groups, one not closed", wrapped(65, "(", "(a", ")"), string("a"), DIMMHALT_NOT_A_PATTERN);
    hold_verdict("65 groups, one closed twice", wrapped(65, "(", "a)", ")"), string("a"), DIMMHALT_NOT_A_PATTERN);
    hold_verdict("65 groups around a**", wrapped(65, "(", "a**", ")"), string("a"), DIMMHALT_NOT_A_PATTERN);
    hold_verdict("65 groups around a|", wrapped(65, "(", "a|", ")"), string("a"), DIMMHALT_NOT_A_PATTERN);
    hold_verdict("65 groups and 65 positions", wrapped(65, "(a", "", ")"), string("a"), DIMMHALT_NESTED_TOO_DEEP);
    hold_verdict("512 open groups", wrapped(512, "(", "", ""), string("a"), DIMMHALT_NOT_A_PATTERN);
    hold_verdict("64 positions", wrapped(64, "a", "", ""), wrapped(64, "a", "", ""), DIMMHALT_ONE_TREE);
    hold_verdict("65 positions", wrapped(65, "a", "", ""), wrapped(65, "a", "", ""), DIMMHALT_TOO_MANY_POSITIONS);
    hold_verdict("64 marks", wrapped(63, "(", "a?", ")?"), string("a"), DIMMHALT_ONE_TREE);
    hold_verdict("65 marks", wrapped(64, "(", "a?", ")?"), string("a"), DIMMHALT_TOO_MANY_MARKS);
}

/* One call after another gives what it gave before: nothing is kept. */
static void hold_again(void)
{
    hold_verdict("a refused pattern", string("("), string("a"), DIMMHALT_NOT_A_PATTERN);
    hold_verdict("a good one after it", string("a"), string("a"), DIMMHALT_ONE_TREE);
    hold_verdict("the refused one again", string("("), string("a"), DIMMHALT_NOT_A_PATTERN);
}

void hold_verdicts(void)
{
    hold_readings();
    hold_limits();
    hold_again();
}
