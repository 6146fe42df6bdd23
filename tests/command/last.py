"""How the verb sheet is called: help, wrong calls, where options may stand, wrong files; and last night's turns, as a list and as a sheet."""

from calls import ANSWERS, STATUSES, try_help
from holding import VERSION, has
from sheet import WORKED, changes_of, in_words, lines_of, raw_sheet

REFUSALS = """\
  9   4  report refused: its tree is longer than the room that is lent
 12  64  reports refused: there are more than 1,000 of them
 13  64  last night's turns refused: there is not one number for each mark
 14  64  last night's turns refused: a number is over 4,096,000
"""
ALL_FIT = "  0   0  every report fits the pattern\n"
_, PATTERN, _, LAST, NUMBERS, RECORDS = WORKED
SHEET = raw_sheet(NUMBERS, RECORDS, changes_of(RECORDS, LAST)).splitlines()
NOT_ONE_FOR_EACH = "refused, number 13: there is not one number for each mark"
TOO_LARGE = "refused, number 14: a number is over 4,096,000"


def hold_sheet_help(holder):
    forms = ("Usage: dimmhalt sheet [OPTION...] PATTERN", "  or:  dimmhalt sheet [OPTION...] -e PATTERN")
    usages = [form + " --last FILE REPORT...\n" for form in forms]
    table = ALL_FIT + ANSWERS.split("\n", 2)[2] + REFUSALS + STATUSES
    for words in (["--help"], ["a", "--last", "b", "--help"]):
        holder.hold_done(f"help: sheet {words}", holder.run(["sheet", *words]), 0, has(*usages, "--raw", "--last=FILE", "\n" + table))
    holder.hold_done("version by sheet", holder.run(["sheet", "--version"]), 0, VERSION)


def hold_wrong_sheet_calls(holder):
    last = ["--last", "l"]
    for words, said in (
        ([], "pattern and reports are missing"),
        (last, "pattern and reports are missing"),
        (["a", *last], "the reports are missing"),
        (["-e", "a", *last], "the reports are missing"),
        (["a", "b"], "last night's turns are missing: --last FILE"),
        (["-e", "a", "b"], "last night's turns are missing: --last FILE"),
        (["a", "b", "--last"], "option '--last' requires an argument"),
        (["a", "b", *last, *last], "--last is given twice"),
        (["-e", "a", "-e", "b", "c", *last], "a pattern is given twice"),
        (["-", "-", *last], "only one file can be standard input"),
        (["a", "-", "b", "-", *last], "only one file can be standard input"),
        (["a", "b", "-", "--last", "-"], "only one file can be standard input"),
        (["-", "b", "--last", "-"], "only one file can be standard input"),
        (["-e", "-", "-", "--last", "-"], "only one file can be standard input"),
        (["--tree", "a", "b", *last], "unrecognized option '--tree'"),
        (["--raw=3", "a", "b", *last], "option '--raw' doesn't allow an argument"),
    ):
        did = holder.run(["sheet", *words])
        holder.hold_done(f"a wrong call: sheet {words!r:.60}", did, 64, "", f"dimmhalt sheet: {said}{try_help('sheet')}")


def hold_sheet_order(holder):
    """Options before, between and behind the words; - is standard input, in one place."""
    pattern, report, last = holder.file("pattern", "a*\n"), holder.file("report", "aa"), holder.file("last", "1\n")
    raw = raw_sheet([0], [(2, 2, 1)], [1])
    for words, given in (
        (["--raw", "--last", last, pattern, report], b""),
        ([pattern, f"--last={last}", report, "--raw"], b""),
        ([report, "--raw", "--last", last, "-e", "a*"], b""),
        (["--raw", "--last", last, "--", pattern, report], b""),
        (["--raw", "--last", last, "-", report], b"a*\n"),
        (["--raw", "--last", last, pattern, "-"], b"aa"),
        (["--raw", "--last", "-", pattern, report], b"1\n"),
    ):
        holder.hold_done(f"words in another place: sheet {words}", holder.run(["sheet", *words], given), 0, raw)


def hold_sheet_files(holder):
    """Each file that cannot be read is named. They are all read before anything is judged."""
    good, nothing = holder.file("good", ")"), holder.path("nothing")
    missing, folder = "No such file or directory", "Is a directory"
    for words, name, said, status in (
        ([nothing, "--last", good, good], nothing, missing, 64),
        ([good, "--last", nothing, good], nothing, missing, 64),
        ([good, "--last", good, good, nothing, good], nothing, missing, 64),
        ([good, "--last", good, good, holder.folder.name], holder.folder.name, folder, 64),
        ([good, "--last", holder.folder.name, good], holder.folder.name, folder, 64),
        ([good, "--last", "/proc/self/mem", good], "/proc/self/mem", "Input/output error", 74),
        ([good, "--last", good, good, "/proc/self/mem"], "/proc/self/mem", "Input/output error", 74),
    ):
        holder.hold_done(f"a wrong file: {said}", holder.run(["sheet", *words]), status, "", f"dimmhalt: {name}: {said}\n")


def hold_last(holder, what, content, turns=None, said=None, pattern=PATTERN):
    """Holds what is taken from a file of last night, the turns or the words that refuse it, by the changes to an empty report."""
    did = holder.run(["sheet", "-e", pattern, "--last", holder.file("last", content), "/dev/null"])
    if said is None:
        holder.hold_done(f"last night: {what}", did, 0, in_words(["-"], [0], [(0, 0, 0)] * len(turns), [-number for number in turns]))
    else:
        holder.hold_done(f"last night: {what}", did, 64, "", f"dimmhalt: {holder.path('last')}: {said}\n")


def wrong_list(content, wrong):
    """What is said of a list with too many numbers or too few, and from which line on it is no sheet."""
    return f"{NOT_ONE_FOR_EACH}: the list has {content.count(chr(10))}, the pattern 3; it is no sheet from line {wrong} on"


def hold_lists(holder):
    """One number a line, as many as the pattern has marks."""
    hold_last(holder, "a list", "5\n1\n0\n", (5, 1, 0))
    hold_last(holder, "zeros before a number", "005\n" + "0" * 1000 + "1\n00\n", (5, 1, 0))
    hold_last(holder, "the largest number", "4096000\n1\n4096000\n", (4096000, 1, 4096000))
    hold_last(holder, "a list that as a sheet would have no marks", "0\n0\n0\n", (0, 0, 0))
    hold_last(holder, "an empty list", "", (), pattern="()")
    for line, *numbers in ((1, 4096001, 1, 0), (2, 1, 2**32, 2**32), (3, 1, 0, 2**64), (2, 1, 2**64 + 1, 1), (1, "9" * 99, 0, 0)):
        hold_last(holder, f"a number over the limit in line {line}", lines_of(numbers), said=f"{TOO_LARGE}, in line {line}")
    for content, wrong in (("", 1), ("5\n1\n", 3), ("5\n1\n0\n0\n", 5), ("0\n0\n0\n0\n", 4), ("4096001\n", 1), ("0\n" * 4096, 4)):
        hold_last(holder, f"a list of {content.count(chr(10))} numbers", content, said=wrong_list(content, wrong))


def hold_lines(holder):
    """Each line is a number with a line end behind it."""
    for line in ("", "x", " 5", "5 ", "5,000", "5.0", "0x5", "+", "-", "--5", "5-", "\u0665", "5\0", "5\r"):
        shown = line.replace("\r", "\\x0d").replace("\0", "\\x00").replace("\u0665", "\\xd9\\xa5")
        hold_last(holder, f"a line that is no number: {line!r}", f"1\n{line}\n0\n", said=f'line 2: "{shown}" is no number')
    hold_last(holder, "no line end behind the last", "5\n1\n0", said='line 3: "0" has no line end behind it')
    hold_last(holder, "a long line", "5" * 100 + "x\n", said=f'line 1: "{"5" * 31}" ... "{"5" * 19}x" is no number')
    hold_last(holder, "8,193 bytes", "0\n" * 4096 + "0", said="it has more than 8,192 bytes, which no list and no sheet has")
    words = ["sheet", "-e", PATTERN, "--last", "/dev/zero", "/dev/null"]
    said = "dimmhalt: /dev/zero: it has more than 8,192 bytes, which no list and no sheet has\n"
    holder.hold_done("last night: a file without end", holder.run(words), 64, "", said)


def hold_sheets(holder):
    """A sheet of the night before: what the program printed, of this pattern and of others."""
    words = ["sheet", "-e", PATTERN, "--last", holder.file("last", lines_of(LAST)), "--raw"]
    printed = holder.run([*words, holder.file("report", "abb"), "/dev/null"])
    hold_last(holder, "a sheet that was printed", printed.out, (3, 1, 2))
    hold_last(holder, "the worked sheet", lines_of(SHEET), (2, 1, 1))
    hold_last(holder, "a sheet of no reports", raw_sheet([], [(7, 8, 9)] * 3, [0, 1, -1]), (7, 7, 7))
    hold_last(holder, "a sheet of no marks and no reports", "0\n0\n0\n", (), pattern="()")
    hold_last(holder, "a sheet of no marks", "2\n0\n8\n0\n0\n", (), pattern="()")
    hold_last(holder, "a sheet of 1,000 reports", raw_sheet([0] * 1000, [(1, 1, 1)] * 64, [-5] * 64), (1,) * 64, pattern="a?" * 64)
    large = raw_sheet([8, 8], [(5, 5, 5), (4096001, 5, 5), (2**64, 5, 5)], [0, 0, 0])
    hold_last(holder, "a sheet with a number over the limit", large, said=f"{TOO_LARGE}, in line 8")
    for marks in (0, 2, 4):
        other = raw_sheet([0], [(1, 1, 1)] * marks, [1] * marks)
        hold_last(holder, f"a sheet of {marks} marks", other, said=f"{NOT_ONE_FOR_EACH}: the sheet has {marks}, the pattern 3")
    other = raw_sheet([0], [(1, 1, 1)], [1])
    said = f"{NOT_ONE_FOR_EACH}: the sheet has 1, the pattern 8"
    hold_last(holder, "a sheet of another pattern with as many lines as this has marks", other, said=said, pattern="a?" * 8)


def changed(line, number):
    """The worked sheet with another number in a line."""
    return lines_of([*SHEET[: line - 1], number, *SHEET[line:]])


def hold_wrong_sheets(holder):
    """Sheets that are torn, or go wrong in a line. Where no sign tells it from a list, its numbers are too many."""
    for count in (1, 4, 5, 10, 14, 15):
        torn = lines_of(SHEET[:count])
        hold_last(holder, f"a sheet that is torn behind line {count}", torn, said=wrong_list(torn, count + 1))
    missing = "a number is missing there in a sheet, and a list has no signs"
    wrong = "such a number cannot stand there in a sheet, and a list has no signs"
    for count in (16, 17):
        hold_last(holder, f"a sheet that is torn behind line {count}", lines_of(SHEET[:count]), said=f"line {count + 1}: {missing}")
    hold_last(holder, "a sheet that is torn before its last line end", lines_of(SHEET)[:-1], said='line 18: "+1" has no line end behind it')
    hold_last(holder, "a sheet with a line too many", lines_of([*SHEET, "0"]), said=f"line 19: {wrong}")
    hold_last(holder, "two sheets", lines_of(SHEET * 2), said=f"line 19: {wrong}")
    at_once = [(1, "+3"), (1, 1001), (1, 2**64), (2, "-0"), (5, 65), (5, "+3"), (6, "+2"), (14, "-1"), (15, 2), (15, "+3"), (16, 3)]
    at_once += [(17, "+0"), (17, "-0"), (18, 1)]
    later = [(1, 2, 16), (1, 4, 13), (5, 2, 12), (5, 4, 16)]
    for line, number, at in [(line, number, line) for line, number in at_once] + later:
        hold_last(holder, f"{number} in line {line} of a sheet", changed(line, number), said=f"line {at}: {wrong}")


def hold_few_lasts(holder):
    """All parts of last night's file in few runs."""
    hold_last(holder, "a sheet", lines_of(SHEET), (2, 1, 1))
    hold_last(holder, "a list of 4,096 numbers", "0\n" * 4096, said=wrong_list("0\n" * 4096, 4))
    hold_last(holder, "no line end behind the last", "5\n1\n0", said='line 3: "0" has no line end behind it')


def hold_all_of_last(holder):
    hold_sheet_help(holder)
    hold_wrong_sheet_calls(holder)
    hold_sheet_order(holder)
    hold_sheet_files(holder)
    hold_lists(holder)
    hold_lines(holder)
    hold_sheets(holder)
    hold_wrong_sheets(holder)
