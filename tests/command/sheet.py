"""The verb sheet: its table in words, the raw sheet, its refusals and exit statuses. How it is called, and last night's file: last.py."""

import re

from holding import MANY_MARKS, MANY_PLACES, NO_TREE, NOT_WRITTEN, PATTERN_TOO_LONG, QUICK, REPORT_TOO_LONG, TOO_DEEP
from outline import deep, parts_of

MORE = "dimmhalt: reports: refused, number 12: there are more than 1,000 of them\n"

# what, pattern, reports, last night's turns, the number of each report, the turns, bytes and longest turn of each mark
WORKED = ("the worked example", "(a|b)*", ("ab", "", "x"), (5, 1, 0), (0, 0, 8), ((2, 2, 1), (1, 1, 1), (1, 1, 1)))
SMALL = (
    WORKED,
    ("one report that fits", "a*", ("aa",), (2,), (0,), ((2, 2, 1),)),
    ("one report that does not", "a*", ("b",), (0,), (8,), ((0, 0, 0),)),
    ("one that fits, one that does not", "a*", ("aa", "b"), (0,), (0, 8), ((2, 2, 1),)),
    ("no marks", "ab", ("ab", "abc"), (), (0, 8), ()),
    ("turns over nothing", "((row)*)+", ("", "row", "rowrow"), (0, 9), (0, 0, 0), ((2, 9, 6), (3, 9, 3))),
    ("the longest turn in one report of many", "(a*b)*", ("aabb", "aaaab", "b"), (3, 7), (0, 0, 0), ((4, 10, 5), (6, 6, 1))),
    ("another tree", "a*a*", ("aa", "a"), (4096000, 0), (0, 0), ((3, 3, 1), (0, 0, 0))),
    ("bytes 0, 10 and 255", ".*", (b"\0\n\xff", b"\n"), (3,), (0, 0), ((4, 4, 1),)),
    ("a long report before one that does not fit", "a*", ("a" * 4097, "b", "a" * 4096), (4095,), (2, 8, 0), ((4096, 4096, 1),)),
    ("a report that does not fit before a long one", "a*", ("b", "a" * 4097), (0,), (8, 2), ((0, 0, 0),)),
    ("a long report alone", "(a|b)*", ("a" * 5000, "ab"), (0, 1, 2), (2, 0), ((2, 2, 1), (1, 1, 1), (1, 1, 1))),
    ("64 marks", deep(64), ("a", "", "a"), (1,) * 63 + (3,), (0, 0, 0), ((2, 2, 1),) * 64),
)
# the example of the README: its reports, and as above
NIGHT = ("nightly", "second", "torn")
NIGHT_LAST = (20, 14, 7, 43, 38, 17, 22, 8, 7, 0, 2)
NIGHT_RECORDS = (
    *((20, 20, 1), (14, 14, 1), (6, 209, 39), (48, 48, 1), (36, 36, 1), (18, 18, 1), (22, 22, 1), (8, 8, 1)),
    *((5, 10, 2), (1, 7, 7), (2, 2, 1)),
)

# pattern, and the words of judge
PLACE = 'Its first byte, ")", cannot stand there (line 1, byte 1 of it).\n'
REFUSED = (
    ("a" * 513, PATTERN_TOO_LONG),
    (")", NOT_WRITTEN + PLACE),
    ("(" * 65 + ")" * 65, TOO_DEEP),
    ("a" * 65, MANY_PLACES),
    ("()?" * 65, MANY_MARKS),
)


def lines_of(numbers):
    return "".join(f"{number}\n" for number in numbers)


def changes_of(records, last):
    return [record[0] - turns for record, turns in zip(records, last, strict=True)]


def raw_sheet(answers, records, changes):
    """The sheet as the call writes it."""
    signed = [f"{change:+}" if change else "0" for change in changes]
    figures = [figure for record in records for figure in record]
    return lines_of([len(answers), *answers, len(records), *figures, len(changes), *signed])


def refused_line(name, number):
    words = {2: REPORT_TOO_LONG, 8: NO_TREE, 9: "The report is refused, number 9: its tree is longer than the room that is lent.\n"}
    return f"{name}: {words[number]}"


def in_words(names, answers, records, changes):
    """What a person reads."""
    fits, refused = answers.count(0), len(answers) - answers.count(0)
    said = f"{len(answers):,} report{'s' * (len(answers) != 1)}: {fits:,} fit{'s' * (fits == 1)} the pattern, "
    said += f"{refused:,} {'is' if refused == 1 else 'are'} refused.\n\n"
    said += f"{'':7}{'turns':>10}{'bytes':>10}{'longest':>10}{'change':>10}\n" if records else "The pattern has no marks.\n"
    for mark, (record, change) in enumerate(zip(records, changes, strict=True), 1):
        said += f"mark {mark:2}" + "".join(f"{figure:10}" for figure in record) + (f"{change:+10}\n" if change else f"{0:10}\n")
    wrong = [refused_line(name, number) for name, number in zip(names, answers, strict=True) if number]
    return said + ("\nRefused:\n" + "".join(wrong) if wrong else "")


def status_of(answers):
    return 2 if 8 in answers else 4 if any(answers) else 0


def night_files(holder, reports):
    return [holder.file(f"report {at}", report) for at, report in enumerate(reports)]


def figures_of(holder, pattern, names, marks):
    """The records of a night, made in another way than the call makes them: from the trees that judge prints."""
    read = [[] for _ in range(marks + 1)]
    for name in names:
        raw = holder.run(["judge", "--raw", pattern, name]).out.decode()
        form = re.fullmatch(r"ANSWER 0 \d+ [01]\nTREE(.*)\n", raw)
        for _, mark, start, end in parts_of(form.group(1).split() if form else []):
            read[mark] += [end - start] if end > start else []
    return tuple((len(sizes), sum(sizes), max(sizes, default=0)) for sizes in read[1:])


def hold_night(holder, what, pattern, reports, last, answers, records, own=True):
    """Holds a sheet in words and raw to figures that are given, and to those of the trees."""
    names, pattern = night_files(holder, reports), holder.file("pattern", pattern)
    words = ["sheet", pattern, "--last", holder.file("last", lines_of(last)), *names]
    changes, status = changes_of(records, last), status_of(answers)
    if own:
        holder.hold(f"the tests' own figures: {what}", figures_of(holder, pattern, names, len(records)), records)
    holder.hold_done(f"sheet: {what}", holder.run(words), status, in_words(names, answers, records, changes))
    holder.hold_done(f"sheet: {what}, raw", holder.run([*words, "--raw"]), status, raw_sheet(answers, records, changes))


def hold_sheet_example(holder, examples):
    pattern, last = str(examples / "nightly.pattern"), str(examples / "last-night.turns")
    names = [str(examples / f"{name}.report") for name in NIGHT]
    out = in_words(names, [0, 0, 8], NIGHT_RECORDS, changes_of(NIGHT_RECORDS, NIGHT_LAST))
    holder.hold_done("sheet: the example", holder.run(["sheet", pattern, "--last", last, *names]), 2, out)


def hold_names(holder):
    """Names of refused reports may hold anything; standard input has one too."""
    names = ["a\nb\x1b[2J", b"\xff\xfe", "-"]
    for name in names[:2]:
        holder.file(name if isinstance(name, str) else name.decode(errors="surrogateescape"), "b")
    words = ["sheet", "-e", "a*", "--last", holder.file("last", "0\n"), *names]
    shown = in_words(["a\\nb\\x1b[2J", "\\xff\\xfe", "standard input"], [8, 8, 8], [(0, 0, 0)], [0])
    holder.hold_done("names of refused reports", holder.run(words, b"b", cwd=holder.folder.name), 2, shown)


def hold_largest_night(holder):
    """1,000 reports of 4,096 letters, the largest figures; and one report more."""
    names = [holder.file("report", "a" * 4096)] * 1000
    words = ["sheet", "-e", "a*", "--last", holder.file("last", "0\n")]
    did = holder.run([*words, *names])
    holder.hold_done("1,000 reports", did, 0, in_words(names, [0] * 1000, [(4096000, 4096000, 1)], [4096000]))
    holder.hold("1,000 reports without delay", did.seconds < QUICK, True)
    for count in (1001, 3000):
        holder.hold_done(f"{count:,} reports", holder.run([*words, *["/dev/zero"] * count]), 64, "", MORE)
    holder.hold_done("1,001 reports, raw", holder.run([*words, *names, names[0], "--raw"]), 64, "", MORE)
    pattern, out = REFUSED[1]
    did = holder.run(["sheet", "-e", pattern, *words[3:], *names, names[0]])
    holder.hold_done("1,001 reports, and what is no pattern", did, 3, out)


def hold_refused_patterns(holder):
    """A pattern is refused in the words of judge, whatever the file of last night holds; a raw sheet stays empty."""
    report, last = holder.file("report", "a" * 4097), holder.file("last", "no number\n")
    for pattern, out in REFUSED:
        words = ["sheet", "-e", pattern, "--last", last, report]
        holder.hold_done(f"a refused pattern: {pattern:.9}", holder.run(words), 3, out)
        why = out.splitlines()[0].removeprefix("The pattern is ").rstrip(".")
        holder.hold_done(f"a refused pattern: {pattern:.9}, raw", holder.run([*words, "--raw"]), 3, "", f"dimmhalt: pattern: {why}\n")


def hold_long_reports(holder):
    """What has no end is refused at once, and the next report is taken as it is."""
    did = holder.run(["sheet", "-e", "a*", "--last", holder.file("last", "0\n"), "/dev/zero", holder.file("report", "a")])
    out = in_words(["/dev/zero", ""], [2, 0], [(1, 1, 1)], [1])
    holder.hold_done("a report without end", did, 4, out)
    holder.hold("a report without end is refused at once", did.seconds < QUICK, True)


def hold_few_sheets(holder, examples):
    """All parts of the verb in few runs."""
    hold_sheet_example(holder, examples)
    hold_night(holder, *WORKED, own=False)
    hold_night(holder, *SMALL[-1], own=False)


def hold_sheet(holder, examples):
    hold_sheet_example(holder, examples)
    night = [(examples / f"{name}.report").read_bytes() for name in NIGHT]
    hold_night(holder, "the example's figures", (examples / "nightly.pattern").read_bytes(), night, NIGHT_LAST, (0, 0, 8), NIGHT_RECORDS)
    for case in SMALL:
        hold_night(holder, *case)
    hold_names(holder)
    hold_largest_night(holder)
    hold_refused_patterns(holder)
    hold_long_reports(holder)
