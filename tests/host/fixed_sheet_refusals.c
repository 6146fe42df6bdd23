/* What refuses a sheet: each ground on both sides of its limit, and all of them together. */
#include "night.h"
#include "words.h"

/* The night of the worked example. */
static struct asked example(void)
{
    struct asked night = new_night(string("(a|b)*"), numbers_of("5 1 0"), 12);
    add_reports(&night, 1, string("ab"));
    add_reports(&night, 1, string(""));
    add_reports(&night, 1, string("x"));
    return night;
}

/* The same with another row to read, or to lend. */
static struct asked with_input(enum input which, struct row row)
{
    struct asked night = example();
    replace_row(&night.inputs[which], row);
    return night;
}

static struct asked with_lent(enum lent which, struct row row)
{
    struct asked night = example();
    replace_row(&night.lent[which], row);
    return night;
}

static void hold_refusal(const char *what, struct asked night, uint32_t number, uint64_t value)
{
    hold(what, night, refusal_left(&night, number, value));
}

static void hold_example(const char *what, struct asked night, const char *sheet)
{
    hold(what, night, sheet_left(&night, lines_of(sheet), numbers_of("2 2 1 1 1 1 1 1 1"), row_of("o1 o2 b97 c2 c1 o1 o3 b98 c3 c1")));
}

static void hold_pattern_refusals(void)
{
    size_t at;
    for (at = 0; at < MISTAKES; at++) {
        hold_refusal(mistakes[at].bytes, with_input(PATTERN, string(mistakes[at].bytes)), DIMMHALT_NOT_A_PATTERN, mistakes[at].place);
    }
    hold_refusal("513 bytes", with_input(PATTERN, wrapped(513, "a", "", "")), DIMMHALT_PATTERN_TOO_LONG, 0);
    hold_refusal("a million bytes", with_input(PATTERN, wrapped(1000000, "a", "", "")), DIMMHALT_PATTERN_TOO_LONG, 0);
    hold_refusal("65 open groups", with_input(PATTERN, wrapped(65, "(", "", "")), DIMMHALT_NOT_A_PATTERN, 65);
    hold_refusal("65 groups", with_input(PATTERN, wrapped(65, "(", "a", ")")), DIMMHALT_NESTED_TOO_DEEP, 0);
    hold_refusal("65 positions", with_input(PATTERN, wrapped(65, "a", "", "")), DIMMHALT_TOO_MANY_POSITIONS, 0);
    hold_refusal("65 marks", with_input(PATTERN, wrapped(65, "()+", "", "")), DIMMHALT_TOO_MANY_MARKS, 0);
}

static void hold_lent_refusals(void)
{
    hold_refusal("4,096 cells", with_lent(CELLS, dirty_cells(4096)), DIMMHALT_TOO_FEW_CELLS, 0);
    hold_refusal("no cells", with_lent(CELLS, dirty_cells(0)), DIMMHALT_TOO_FEW_CELLS, 0);
    hold_refusal("8,191 sheet bytes", with_lent(SHEET, dirty_sheet(8191)), DIMMHALT_TOO_FEW_CELLS, 0);
    hold_refusal("no sheet bytes", with_lent(SHEET, dirty_sheet(0)), DIMMHALT_TOO_FEW_CELLS, 0);
    hold_example("8,192 sheet bytes", with_lent(SHEET, dirty_sheet(8192)), "3 0 0 8 3 2 2 1 1 1 1 1 1 1 3 -3 0 +1");
    hold_example("4,097 cells", with_lent(CELLS, dirty_cells(4097)), "3 0 0 8 3 2 2 1 1 1 1 1 1 1 3 -3 0 +1");
}

/* The lengths of the example are 2, 0 and 1; in most of these they add up to 3 in fewer than 65 bits. */
static void hold_length_refusals(void)
{
    static const char *const wrong[] = {
        "", "2 0", "2 0 0", "2 0 2", "2 0 1 1", "0", "4", "4097", "4294967299", "18446744073709551615", "18446744073709551615 4",
        "4 18446744073709551615", "9223372036854775808 9223372036854775808 3", "9223372036854775809 9223372036854775810",
        "3 9223372036854775808 9223372036854775808", "6148914691236517206 6148914691236517206 6148914691236517207",
        "18446744073709551615 18446744073709551615 5", "2 0 1 18446744073709551615 1", "4294967296 4294967299",
    };
    uint64_t none = 0;
    size_t at;
    for (at = 0; at < sizeof wrong / sizeof *wrong; at++) {
        hold_refusal(wrong[at], with_input(LENGTHS, numbers_of(wrong[at])), DIMMHALT_WRONG_LENGTHS, 0);
    }
    hold_refusal("no bytes", with_input(REPORTS, string("")), DIMMHALT_WRONG_LENGTHS, 0);
    hold_refusal("a byte short", with_input(REPORTS, string("ab")), DIMMHALT_WRONG_LENGTHS, 0);
    hold_refusal("a byte more", with_input(REPORTS, string("abxx")), DIMMHALT_WRONG_LENGTHS, 0);
    hold_refusal("1,001 reports", with_input(LENGTHS, joined(numbers_of("3"), repeated(1000, &none, sizeof none))), DIMMHALT_WRONG_LENGTHS, 0);
    hold_refusal("1,001 reports, and the bytes in the last", with_input(LENGTHS, joined(repeated(1000, &none, sizeof none), numbers_of("3"))),
                 DIMMHALT_WRONG_LENGTHS, 0);
    hold_refusal("a million reports", with_input(LENGTHS, joined(numbers_of("3"), repeated(1000000, &none, sizeof none))),
                 DIMMHALT_WRONG_LENGTHS, 0);
}

static void hold_mark_refusals(void)
{
    struct asked night;
    hold_refusal("a record short", with_lent(TABLE, dirty_table(2)), DIMMHALT_WRONG_MARKS, 0);
    hold_refusal("a record more", with_lent(TABLE, dirty_table(4)), DIMMHALT_WRONG_MARKS, 0);
    hold_refusal("no records", with_lent(TABLE, dirty_table(0)), DIMMHALT_WRONG_MARKS, 0);
    hold_refusal("64 records", with_lent(TABLE, dirty_table(64)), DIMMHALT_WRONG_MARKS, 0);
    hold_refusal("a number short", with_input(LAST, numbers_of("5 1")), DIMMHALT_WRONG_MARKS, 0);
    hold_refusal("a number more", with_input(LAST, numbers_of("5 1 0 0")), DIMMHALT_WRONG_MARKS, 0);
    hold_refusal("no numbers", with_input(LAST, numbers_of("")), DIMMHALT_WRONG_MARKS, 0);
    hold_refusal("a mark less than there are records and numbers", with_input(PATTERN, string("a|b")), DIMMHALT_WRONG_MARKS, 0);
    hold_refusal("no marks", with_input(PATTERN, string("ab")), DIMMHALT_WRONG_MARKS, 0);
    night = with_lent(TABLE, dirty_table(4));
    replace_row(&night.inputs[LAST], numbers_of("0 0"));
    hold_refusal("a record more and a number short", night, DIMMHALT_WRONG_MARKS, 0);
}

static void hold_last_refusals(void)
{
    static const char *const large[] = {"4096001 0 0",    "0 4096001 0", "0 0 4096001", "4096000 4096000 4096001", "0 0 4294967296",
                                        "4098096000 0 0", "0 4299063296 0", "0 0 18446744073709551615", "9223372036854775808 0 0"};
    size_t at;
    for (at = 0; at < sizeof large / sizeof *large; at++) {
        hold_refusal(large[at], with_input(LAST, numbers_of(large[at])), DIMMHALT_LAST_TOO_LARGE, 0);
    }
    hold_example("the most of last night", with_input(LAST, numbers_of("4096000 4096000 4096000")),
                 "3 0 0 8 3 2 2 1 1 1 1 1 1 1 3 -4095998 -4095999 -4095999");
}

/* A ground of each kind, and none. Bit by bit a number says which of the others hold as well. */
enum { FEW_CELLS = 1, FEW_BYTES = 2, LENGTHS_WRONG = 4, TABLE_WRONG = 8, LAST_SHORT = 16, LAST_LARGE = 32, ALL_GROUNDS = 64 };

static struct asked night_with(struct row pattern, unsigned int grounds)
{
    struct asked night = with_input(PATTERN, pattern);
    const char *last = grounds & LAST_LARGE ? "0 4096001 0" : "5 1 0", *short_last = grounds & LAST_LARGE ? "4096001" : "5 1";
    replace_row(&night.inputs[LAST], numbers_of(grounds & LAST_SHORT ? short_last : last));
    if (grounds & FEW_CELLS) {
        replace_row(&night.lent[CELLS], dirty_cells(4096));
    }
    if (grounds & FEW_BYTES) {
        replace_row(&night.lent[SHEET], dirty_sheet(8191));
    }
    if (grounds & LENGTHS_WRONG) {
        replace_row(&night.inputs[LENGTHS], numbers_of("2 0 2"));
    }
    if (grounds & TABLE_WRONG) {
        replace_row(&night.lent[TABLE], dirty_table(2));
    }
    return night;
}

/* The first that applies, where the pattern is refused by a number, or by none and it is 0. */
static uint32_t first_of(uint32_t of_pattern, unsigned int grounds)
{
    if (of_pattern == DIMMHALT_PATTERN_TOO_LONG) {
        return of_pattern;
    }
    if (grounds & (FEW_CELLS | FEW_BYTES)) {
        return DIMMHALT_TOO_FEW_CELLS;
    }
    if (of_pattern != 0) {
        return of_pattern;
    }
    return grounds & LENGTHS_WRONG                ? DIMMHALT_WRONG_LENGTHS
           : grounds & (TABLE_WRONG | LAST_SHORT) ? DIMMHALT_WRONG_MARKS
                                                  : DIMMHALT_LAST_TOO_LARGE;
}

/* Every set of grounds with a pattern that is refused by a number, or by none. Frees the pattern. */
static void hold_sets(const char *what, struct row pattern, uint32_t number, uint64_t place)
{
    unsigned int grounds;
    for (grounds = number == 0 ? 1 : 0; grounds < ALL_GROUNDS; grounds++) {
        uint32_t first = first_of(number, grounds);
        hold_refusal(what, night_with(copy_of(pattern), grounds), first, first == DIMMHALT_NOT_A_PATTERN ? place : 0);
    }
    free_row(pattern);
}

static void hold_order(void)
{
    hold_sets("several grounds", string("(a|b)*"), 0, 0);
    hold_sets("several grounds and a long pattern", wrapped(513, "(", "", ""), DIMMHALT_PATTERN_TOO_LONG, 0);
    hold_sets("several grounds and open groups", wrapped(66, "(", "", ""), DIMMHALT_NOT_A_PATTERN, 66);
    hold_sets("several grounds and deep groups", wrapped(65, "(a*", "a", ")"), DIMMHALT_NESTED_TOO_DEEP, 0);
    hold_sets("several grounds and many positions", wrapped(65, "a*", "", ""), DIMMHALT_TOO_MANY_POSITIONS, 0);
    hold_sets("several grounds and many marks", wrapped(65, "()*", "", ""), DIMMHALT_TOO_MANY_MARKS, 0);
}

/* Each refusal with `out` of every length up to three more than the figures. */
static void hold_outs(void)
{
    size_t out;
    for (out = 0; out <= DIMMHALT_SHEET_FIGURES + 3; out++) {
        struct asked nights[] = {
            with_input(PATTERN, wrapped(513, "a", "", "")),    with_lent(CELLS, dirty_cells(4096)),
            with_input(PATTERN, string("a**")),                with_input(PATTERN, wrapped(65, "(", "a", ")")),
            with_input(PATTERN, wrapped(65, "a", "", "")),     with_input(PATTERN, wrapped(65, "()+", "", "")),
            with_input(LENGTHS, numbers_of("1")),              with_lent(TABLE, dirty_table(2)),
            with_input(LAST, numbers_of("0 0 4096001")),
        };
        static const uint32_t numbers[] = {1, 3, 4, 5, 6, 7, 12, 13, 14};
        size_t at;
        for (at = 0; at < sizeof nights / sizeof *nights; at++) {
            replace_row(&nights[at].lent[OUT], dirty_out(out));
            hold_refusal("out of a refusal", nights[at], numbers[at], numbers[at] == DIMMHALT_NOT_A_PATTERN ? 2 : 0);
        }
    }
}

void hold_refused_sheets(void)
{
    hold_pattern_refusals();
    hold_lent_refusals();
    hold_length_refusals();
    hold_mark_refusals();
    hold_last_refusals();
    hold_order();
    hold_outs();
}
