/* The sheets of nights that were worked out by hand, of large ones, and with as little lent as will do. */
#include "night.h"
#include "words.h"

#include <string.h>

/* A night of short reports, each but the first after a comma, and what comes of it: the sheet, the table and the front of the room. */
struct by_hand {
    const char *what;
    const char *pattern;
    const char *reports;
    const char *last;
    size_t room;
    const char *sheet;
    const char *table;
    const char *tree;
};

static const struct by_hand by_hand[] = {
    {"the worked example", "(a|b)*", "ab,,x", "5 1 0", 12, "3 0 0 8 3 2 2 1 1 1 1 1 1 1 3 -3 0 +1", "2 2 1 1 1 1 1 1 1",
     "o1 o2 b97 c2 c1 o1 o3 b98 c3 c1"},
    {"no reports", "(a|b)*", NULL, "5 1 0", 3, "0 3 0 0 0 0 0 0 0 0 0 3 -5 -1 0", "0 0 0 0 0 0 0 0 0", ""},
    {"no marks", "ab", "ab,a,ab", "", 3, "3 0 8 0 0 0", "", "b97 b98"},
    {"no reports, marks and room", "()", NULL, "", 0, "0 0 0", "", ""},
    {"an empty report", "()", "", "", 0, "1 0 0 0", "", ""},
    {"empty reports that do not fit", "a", ",,", "", 0, "3 8 8 8 0 0", "", ""},
    {"empty reports between others", "a*", ",a,,,aa,", "3", 6, "6 0 0 0 0 0 0 1 3 3 1 1 0", "3 3 1", "o1 b97 c1 o1 b97 c1"},
    /* the room ends as calls in turn leave it: a shorter tree leaves the end of a longer one, and what is refused leaves all */
    {"a long tree and a short one", "[a-z]*", "ab,c", "0", 7, "2 0 0 1 3 3 1 1 +3", "3 3 1", "o1 b99 c1 o1 b98 c1"},
    {"a short tree and a long one", "[a-z]*", "c,ab", "0", 7, "2 0 0 1 3 3 1 1 +3", "3 3 1", "o1 b97 c1 o1 b98 c1"},
    {"a room too small for some", "[a-z]*", "abc,d,ab,efg,A,x", "9", 6, "6 9 0 0 9 8 0 1 4 4 1 1 -5", "4 4 1", "o1 b120 c1 o1 b98 c1"},
    {"a token short for one", "[a-z]*", "ab,c", "1", 5, "2 9 0 1 1 1 1 1 0", "1 1 1", "o1 b99 c1"},
    {"no room", "a*", "a,,b", "0", 0, "3 9 0 8 1 0 0 0 1 0", "0 0 0", ""},
    /* an empty turn is none, also where other turns of its mark read text */
    {"the sole turn over nothing", "((row)*)+", ",rowrow,row", "2 1", 40, "3 0 0 0 2 2 9 6 3 9 3 2 0 +2", "2 9 6 3 9 3",
     "o1 o2 b114 b111 b119 c2 c1 b114 b111 b119 c2 c1"},
    {"a mark over nothing and over text", "((a*)+b)*", "baab,b", "2 0 2", 40, "2 0 0 3 3 5 3 1 2 2 2 2 1 3 +1 +1 0", "3 5 3 1 2 2 2 2 1",
     "o1 o2 c2 b98 c1 o1 o2 o3 b97 c3 o3 b97 c3 c2 b98 c1"},
    /* of several trees the first counts; the longest turn may be in any report */
    {"two trees", "a|a", "a,a", "0 0", 3, "2 0 0 2 2 2 1 0 0 0 2 +2 0", "2 2 1 0 0 0", "o1 b97 c1"},
    {"two trees of turns", "(a*)*", "aa", "0 3", 8, "1 0 2 1 2 2 2 2 1 2 +1 -1", "1 2 2 2 2 1", "o1 o2 b97 c2 o2 b97 c2 c1"},
    {"the longest turn in the first", "([a-z]+;)*", "abc;d;,e;", "3 5", 64, "2 0 0 2 3 8 4 5 5 1 2 0 0", "3 8 4 5 5 1",
     "o1 o2 b101 c2 b59 c1 c2 o2 b99 c2 b59 c1 o1 o2 b100 c2 b59 c1"},
    {"the longest turn in the last", "([a-z]+;)*", "e;,d;abc;", "13 15", 64, "2 0 0 2 3 8 4 5 5 1 2 -10 -10", "3 8 4 5 5 1",
     "o1 o2 b100 c2 b59 c1 o1 o2 b97 c2 o2 b98 c2 o2 b99 c2 b59 c1"},
    {"last night's most", "a?", "a", "4096000", 3, "1 0 1 1 1 1 1 -4095999", "1 1 1", "o1 b97 c1"},
};

/* Adds the reports of a list with commas. */
static void add_list(struct asked *night, const char *list)
{
    size_t length = strcspn(list, ",");
    add_reports(night, 1, bytes_of(list, length));
    while (list[length] == ',') {
        list += length + 1;
        length = strcspn(list, ",");
        add_reports(night, 1, bytes_of(list, length));
    }
}

static void hold_by_hand(void)
{
    size_t at;
    for (at = 0; at < sizeof by_hand / sizeof *by_hand; at++) {
        const struct by_hand *of = &by_hand[at];
        struct asked night = new_night(string(of->pattern), numbers_of(of->last), of->room);
        if (of->reports != NULL) {
            add_list(&night, of->reports);
        }
        hold(of->what, night, sheet_left(&night, lines_of(of->sheet), numbers_of(of->table), row_of(of->tree)));
    }
}

static struct row many_numbers(size_t times, const char *words)
{
    struct row numbers = numbers_of(words), all = repeated(times, numbers.bytes, numbers.length);
    free_row(numbers);
    return all;
}

static struct row many_lines(size_t times, const char *words)
{
    struct row lines = lines_of(words), all = repeated(times, lines.bytes, lines.length);
    free_row(lines);
    return all;
}

/* A sheet of 1,000 reports with the same number, and the words behind them. */
static struct row long_sheet(const char *number, const char *behind)
{
    return joined(joined(lines_of("1000"), many_lines(1000, number)), lines_of(behind));
}

static void hold_many_reports(void)
{
    struct asked night = new_night(string("a*"), numbers_of("0"), 3);
    add_reports(&night, 1000, string("a"));
    hold("1,000 reports", night,
         sheet_left(&night, long_sheet("0", "1 1000 1000 1 1 +1000"), numbers_of("1000 1000 1"), row_of("o1 b97 c1")));
    night = new_night(string("a*"), numbers_of("7"), 3);
    add_reports(&night, 1000, string(""));
    hold("1,000 empty reports", night, sheet_left(&night, long_sheet("0", "1 0 0 0 1 -7"), numbers_of("0 0 0"), new_row(0)));
    night = new_night(string("b+|()"), numbers_of("0 0 0"), 0);
    add_reports(&night, 1000, string("ab"));
    hold("1,000 reports that do not fit", night,
         sheet_left(&night, long_sheet("8", "3 0 0 0 0 0 0 0 0 0 3 0 0 0"), many_numbers(3, "0 0 0"), new_row(0)));
}

/* 1,000 reports and 64 marks, with room for their trees and with a token less. */
static void hold_many_marks(void)
{
    struct asked night = new_night(wrapped(63, "(", "a?", ")?"), many_numbers(64, "4096000"), 129);
    struct row sheet = joined(joined(long_sheet("0", "64"), many_lines(64, "1000 1000 1")), joined(lines_of("64"), many_lines(64, "-4095000")));
    add_reports(&night, 1000, string("a"));
    hold("1,000 reports and 64 marks", night, sheet_left(&night, sheet, many_numbers(64, "1000 1000 1"), under_64_marks()));
    night = new_night(wrapped(63, "(", "a?", ")?"), many_numbers(64, "4096000"), 128);
    sheet = joined(joined(long_sheet("9", "64"), many_lines(64, "0 0 0")), joined(lines_of("64"), many_lines(64, "-4096000")));
    add_reports(&night, 1000, string("a"));
    hold("1,000 reports and 64 marks, a token short", night, sheet_left(&night, sheet, many_numbers(64, "0 0 0"), new_row(0)));
}

/* The first tree of 4,096 letters under `(a*)?`. */
static struct row longest_tree(void)
{
    struct row turn = row_of("o2 b97 c2");
    struct row turns = repeated(4096, turn.bytes, turn.length);
    free_row(turn);
    return joined(joined(row_of("o1"), turns), row_of("c1"));
}

/* No night has more turns or bytes of a mark, nor a longer turn: 1,000 reports of 4,096 bytes. */
static void hold_most(void)
{
    struct asked night = new_night(string("(a*)?"), numbers_of("4096000 0"), 12290);
    add_reports(&night, 1000, wrapped(4096, "a", "", ""));
    hold("1,000 reports of 4,096 letters", night,
         sheet_left(&night, long_sheet("0", "2 1000 4096000 4096 4096000 4096000 1 2 -4095000 +4096000"),
                    numbers_of("1000 4096000 4096 4096000 4096000 1"), longest_tree()));
}

/* A report of 4,096 bytes, with just the room for its tree and with a token less, and one of 4,097, each before a short one. */
static void hold_long_reports(void)
{
    struct row longest = longest_tree(), front = row_of("o1 o2 b97 c2 c1");
    struct asked night = new_night(string("(a*)?"), numbers_of("0 0"), 12290);
    memcpy(longest.bytes, front.bytes, front.length);
    add_reports(&night, 1, wrapped(4096, "a", "", ""));
    add_reports(&night, 1, string("a"));
    hold("4,096 letters", night,
         sheet_left(&night, lines_of("2 0 0 2 2 4097 4096 4097 4097 1 2 +2 +4097"), numbers_of("2 4097 4096 4097 4097 1"), longest));
    night = new_night(string("(a*)?"), numbers_of("0 0"), 12289);
    add_reports(&night, 1, wrapped(4096, "a", "", ""));
    add_reports(&night, 1, string("a"));
    hold("4,096 letters, a token short", night,
         sheet_left(&night, lines_of("2 9 0 2 1 1 1 1 1 1 2 +1 +1"), numbers_of("1 1 1 1 1 1"), copy_of(front)));
    night = new_night(string("(a*)?"), numbers_of("0 0"), 20000);
    add_reports(&night, 1, wrapped(4097, "a", "", ""));
    add_reports(&night, 1, string("a"));
    hold("4,097 letters", night, sheet_left(&night, lines_of("2 2 0 2 1 1 1 1 1 1 2 +1 +1"), numbers_of("1 1 1 1 1 1"), front));
}

/* As little lent as will do, and `out` of every length up to three more than the figures. */
static void hold_least_lent(void)
{
    size_t out;
    for (out = 0; out <= DIMMHALT_SHEET_FIGURES + 3; out++) {
        struct asked night = new_night(string("a*"), numbers_of("1"), 3);
        add_reports(&night, 1, string("a"));
        replace_row(&night.lent[CELLS], dirty_cells(DIMMHALT_MOST_CELLS));
        replace_row(&night.lent[SHEET], dirty_sheet(DIMMHALT_SHEET_BYTES));
        replace_row(&night.lent[OUT], dirty_out(out));
        hold("just 4,097 cells and 8,192 sheet bytes", night,
             sheet_left(&night, lines_of("1 0 1 1 1 1 1 0"), numbers_of("1 1 1"), row_of("o1 b97 c1")));
    }
}

void hold_sheets(void)
{
    hold_by_hand();
    hold_many_reports();
    hold_many_marks();
    hold_most();
    hold_long_reports();
    hold_least_lent();
}
