"""The verb turns: its counts, in words and raw, its refusals and their order. How it is called is in mark.py."""

import re

from holding import MANY_MARKS, MANY_PLACES, NO_TREE, NOT_WRITTEN, ONE_TREE, PATTERN_TOO_LONG, QUICK, REPORT_TOO_LONG, SEVERAL, TOO_DEEP
from outline import deep, parts_of

OF_FIRST = SEVERAL + ". The counts below are those of the first tree.\n"
NO_MARKS = "\nThe pattern has no marks.\n"

# what, pattern, report, whether there is another tree, the counts of marks 1, 2, ..
READINGS = (
    ("no rows", "((row)*)+", "", 0, (0, 0)),
    ("a row", "((row)*)+", "row", 0, (1, 1)),
    ("two rows", "((row)*)+", "rowrow", 1, (1, 2)),
    ("a turn over the empty text", "()+", "", 0, (0,)),
    ("a turn over nothing", "(a*)+", "", 0, (0, 0)),
)
SMALL = (
    ("no turn of *", "a*", "", 0, (0,)),
    ("no turn of ?", "a?b", "b", 0, (0,)),
    ("turns of *", "a*", "aaa", 0, (3,)),
    ("turns of +", "a+", "aaa", 0, (3,)),
    ("a turn of ?", "a?b", "ab", 0, (1,)),
    ("turns of two bytes", "(ab)*", "abab", 0, (2,)),
    ("the first of two branches", "a|b", "a", 0, (1, 0)),
    ("the second of two branches", "a|b", "b", 0, (0, 1)),
    ("turns with branches", "(a|b)*", "abba", 0, (4, 2, 2)),
    ("an empty branch", "(a|())b", "b", 0, (0, 0)),
    ("an empty branch in the sole turn", "(a|())+", "", 0, (0, 0, 0)),
    ("turns in turns", "(a*b)*", "aabb", 0, (2, 2)),
    ("turns over nothing in turns that read", "(()+a)*", "aa", 0, (2, 0)),
    ("a turn that reads between two that do not", "()+a+()+", "a", 0, (0, 1, 0)),
    ("one inner turn of three reads", "((b*)+a)*", "abaa", 0, (3, 1, 1)),
    ("no byte but in one part", "((a?)+(b?)+)+", "b", 0, (1, 0, 0, 1, 1)),
    ("another tree", "a*a*", "aa", 1, (2, 0)),
    ("equal branches", "a|a", "a", 1, (1, 0)),
    ("bytes 0, 10 and 255", ".*", b"\0\n\xff", 0, (3,)),
    ("each of bytes 0, 10 and 255", b"\0*\n*\xff*", b"\0\0\0\n\n\xff", 0, (3, 2, 1)),
    ("a mark of two digits", "a?" * 9 + "b*", "bb", 0, (0,) * 9 + (2,)),
)
LARGE = (
    ("4,096 turns", "a*", "a" * 4096, 0, (4096,)),
    ("999 turns and 1,000", "a*b*", "a" * 999 + "b" * 1000, 0, (999, 1000)),
    ("64 marks in a row", "a?" * 64, "a" * 64, 0, (1,) * 64),
    ("64 marks in a row, and few bytes", "a?" * 64, "a" * 3, 1, (1,) * 3 + (0,) * 61),
    ("64 marks in each other", deep(64), "a", 0, (1,) * 64),
    ("64 marks around nothing", deep(64, "()", "+"), "", 0, (0,) * 64),
)
NIGHTLY = (10, 7, 3, 24, 19, 8, 11, 4, 2, 1, 1)
AMBIGUOUS = (126, 0, 0, 0, 0, 9)


def listed(lines):
    """The words for counts: pairs of a mark and its count."""
    return "\nTurns that read text:\n" + "".join(f"mark {mark:2}{count:6}\n" for mark, count in lines)


def raw_lines(lines):
    return "".join(f"TURNS {mark} {count}\n" for mark, count in lines)


def counted(tokens, marks):
    """The counts of a tree, made in another way than the calls make them: its parts that read something."""
    parts = parts_of(tokens)
    return tuple(sum(part[1] == mark and part[2] < part[3] for part in parts) for mark in range(1, marks + 1))


def hold_turns(holder, what, pattern, report, status, out, *words):
    """Counts in a report, both in files."""
    did = holder.run(["turns", holder.file("pattern", pattern), holder.file("report", report), *words])
    holder.hold_done(f"turns: {what}", did, status, out)
    return did


def hold_one_mark(holder, what, case, other, answer, line):
    """What is printed for MARK alone: a line in words, and a raw one."""
    words = (OF_FIRST if other else ONE_TREE) + listed([line])
    hold_turns(holder, f"{what}, mark {line[0]}", *case, other, words, str(line[0]))
    hold_turns(holder, f"{what}, mark {line[0]}, raw", *case, other, answer + raw_lines([line]), "--raw", str(line[0]))


def hold_counts(holder, what, pattern, report, other, counts):
    """Holds the counts to those that are given, to those of the tree, and mark by mark."""
    case, lines = (pattern, report), tuple(enumerate(counts, 1))
    raw = holder.run(["judge", "--raw", holder.file("pattern", pattern), holder.file("report", report)]).out.decode()
    form = re.fullmatch(r"(ANSWER 0 \d+ [01]\n)TREE(.*)\n", raw)
    answer, tree = form.groups() if form else (raw, "")
    holder.hold(f"the tests' own counts: {what}", counted(tree.split(), len(counts)), counts)
    hold_turns(holder, what, *case, other, (OF_FIRST if other else ONE_TREE) + listed(lines))
    hold_turns(holder, f"{what}, raw", *case, other, answer + raw_lines(lines), "--raw")
    for mark in sorted({1, len(counts) // 2 + 1, len(counts)}):
        hold_one_mark(holder, what, case, other, answer, lines[mark - 1])


def hold_turn_examples(holder, examples):
    report = (examples / "nightly.report").read_bytes()
    hold_counts(holder, "the example that fits in one way", (examples / "nightly.pattern").read_bytes(), report, 0, NIGHTLY)
    hold_counts(holder, "the example that fits in several", (examples / "ambiguous.pattern").read_bytes(), report, 1, AMBIGUOUS)
    for case in READINGS:
        hold_counts(holder, *case)


def hold_largest_counts(holder):
    """64 marks around each of 4,096 bytes, each of them counted along 528,384 tokens."""
    pattern = "(" * 63 + "a" + "?)" * 63 + "*"
    lines = tuple((mark, 4096) for mark in range(1, 65))
    did = hold_turns(holder, "the largest tree", pattern, "a" * 4096, 0, ONE_TREE + listed(lines))
    holder.hold("the largest tree is counted without delay", did.seconds < QUICK, True)


def hold_no_marks(holder):
    for pattern, report in (("()", ""), ("ab", "ab"), ("((a)b)", "ab"), (".[\xff]", "\n\xff")):
        pattern, report = pattern.encode("latin-1"), report.encode("latin-1")
        hold_turns(holder, f"no marks: {pattern}", pattern, report, 0, ONE_TREE + NO_MARKS)
        hold_turns(holder, f"no marks: {pattern}, raw", pattern, report, 0, f"ANSWER 0 {len(report)} 0\n", "--raw")


def no_mark(has):
    return f"The mark is refused, number 10: the pattern has {has}.\n"


def hold_no_such_mark(holder):
    """A number that is no mark of the pattern, with one tree and with several."""
    for pattern, report, has, marks in (
        ("ab", "ab", "no marks", 0),
        ("a*", "a", "mark 1 alone", 1),
        ("a*b*", "ab", "marks 1 to 2", 2),
        ("a*a*", "a", "marks 1 to 2", 2),
        ("a?" * 63, "", "marks 1 to 63", 63),
        ("a?" * 64, "", "marks 1 to 64", 64),
    ):
        for mark in (0, marks + 1, 65):
            hold_turns(holder, f"mark {mark} of {marks}", pattern, report, 5, no_mark(has), str(mark))
            hold_turns(holder, f"mark {mark} of {marks}, raw", pattern, report, 5, "ANSWER 10 0 0\n", str(mark), "--raw")


def hold_refusals(holder):
    """The refusals of judge, in its words and with its statuses. A mark that the pattern does not have is refused behind them all."""
    unfinished = "All of it begins some pattern, but something is missing at its end.\n"
    wrong = 'Its first byte begins a report that fits; the byte after it, "b", cannot stand there (line 1, byte 2 of it).\n'
    for pattern, report, status, out, raw in (
        ("a" * 513, "a" * 4097, 3, PATTERN_TOO_LONG, "ANSWER 1 0 0\n"),
        ("(a", "a" * 4097, 4, REPORT_TOO_LONG, "ANSWER 2 0 0\n"),
        ("(a", "", 3, NOT_WRITTEN + unfinished, "ANSWER 4 2 0\n"),
        ("(" * 65 + ")" * 65, "", 3, TOO_DEEP, "ANSWER 5 0 0\n"),
        ("a" * 65, "", 3, MANY_PLACES, "ANSWER 6 0 0\n"),
        ("()?" * 65, "", 3, MANY_MARKS, "ANSWER 7 0 0\n"),
        ("a*", "ab", 2, NO_TREE + wrong, "ANSWER 8 1 0\n"),
        ("a", "ab", 2, NO_TREE + wrong, "ANSWER 8 1 0\n"),
    ):
        for words in ([], ["0"], ["1"], ["2"], ["9" * 30]):
            hold_turns(holder, f"{pattern:.9} on {report:.9}, {words}", pattern, report, status, out, *words)
            hold_turns(holder, f"{pattern:.9} on {report:.9}, {words}, raw", pattern, report, status, raw, "--raw", *words)
        holder.hold_judge(f"the same of judge: {pattern:.9} on {report:.9}", pattern, report, status, out)


def hold_few_turns(holder, examples):
    """All parts of the verb in few runs."""
    hold_turn_examples(holder, examples)
    hold_turns(holder, "64 marks", deep(64), "a", 0, ONE_TREE + listed((mark, 1) for mark in range(1, 65)))
    hold_turns(holder, "no marks", "ab", "ab", 0, ONE_TREE + NO_MARKS)
    hold_turns(holder, "no such mark", "a*b*", "ab", 5, no_mark("marks 1 to 2"), "3")
    hold_turns(holder, "a refusal", "a" * 513, "", 3, PATTERN_TOO_LONG, "1")


def hold_all_turns(holder, examples):
    hold_turn_examples(holder, examples)
    for case in SMALL + LARGE:
        hold_counts(holder, *case)
    hold_largest_counts(holder)
    hold_no_marks(holder)
    hold_no_such_mark(holder)
    hold_refusals(holder)
