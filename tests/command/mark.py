"""How the verb turns is called: help, the word MARK, wrong calls, where options may stand."""

from calls import ANSWERS, STATUSES, try_help
from holding import ONE_TREE, VERSION, has
from turns import hold_turns, listed, no_mark

NO_SUCH_MARK = " 10   5  mark refused: the pattern does not have it\n"
TWICE = "; is a pattern given twice?"


def hold_turns_help(holder):
    usages = ("Usage: dimmhalt turns [OPTION...] PATTERN REPORT [MARK]\n", "  or:  dimmhalt turns [OPTION...] -e PATTERN REPORT [MARK]\n")
    for words in (["--help"], ["-?"], ["a", "b", "c", "--help"]):
        did = holder.run(["turns", *words])
        holder.hold_done(f"help: turns {words}", did, 0, has(*usages, "--raw", "\n" + ANSWERS + NO_SUCH_MARK + STATUSES))
        holder.hold(f"no option of judge: turns {words}", b"--tree" in did.out, False)
    holder.hold_done("usage of turns", holder.run(["turns", "--usage"]), 0, has("Usage: dimmhalt turns", "[-e PATTERN]", "[MARK]"))
    holder.hold_done("version by turns", holder.run(["turns", "--version"]), 0, VERSION)


def hold_numbers(holder):
    """Any decimal digits are a number; which of them is a mark is the pattern's to say."""
    first, second, refused = ONE_TREE + listed([(1, 1)]), ONE_TREE + listed([(2, 2)]), no_mark("marks 1 to 2")
    for mark, status, out in (
        ("1", 0, first),
        ("2", 0, second),
        ("01", 0, first),
        ("0" * 1000 + "2", 0, second),
        ("0", 5, refused),
        ("00", 5, refused),
        ("3", 5, refused),
        ("64", 5, refused),
        ("129", 5, refused),
        ("257", 5, refused),
        (str(2**16 + 1), 5, refused),
        (str(2**32 + 1), 5, refused),
        (str(2**63 + 1), 5, refused),
        (str(2**64 - 1), 5, refused),
        (str(2**64), 5, refused),
        (str(2**64 + 1), 5, refused),
        ("1" + "0" * 1000, 5, refused),
    ):
        hold_turns(holder, f"MARK {mark:.30}", "a*b*", "abb", status, out, mark)
    hold_turns(holder, "a number with a zero before it is decimal", "a?" * 9 + "b*", "bb", 0, ONE_TREE + listed([(10, 2)]), "010")


def not_a_number(shown, hint=""):
    return f"dimmhalt turns: MARK is a number, not {shown}{hint}{try_help('turns')}"


def hold_no_numbers(holder):
    """A word that is no number is a wrong call, before any file is looked at."""
    for word, shown in (
        ("", '""'),
        ("+1", '"+1"'),
        ("-1", '"-1"'),
        (" 1", '" 1"'),
        ("1 ", '"1 "'),
        ("1\n", '"1\\n"'),
        ("1x", '"1x"'),
        ("x1", '"x1"'),
        ("0x1", '"0x1"'),
        ("1.0", '"1.0"'),
        ("1,000", '"1,000"'),
        ("1e0", '"1e0"'),
        ("-", '"-"'),
        ("\u0661", '"\\xd9\\xa1"'),
        (b"1\xff", '"1\\xff"'),
        ("%s%n", '"%s%n"'),
        ("\x1b[2J", '"\\x1b[2J"'),
        ("m" * 100000, f'"{"m" * 31}" ... "{"m" * 20}"'),
    ):
        with_file = holder.run(["turns", "--", "nothing", "nothing", word])
        holder.hold_done(f"no number: {word!r:.30}", with_file, 64, "", not_a_number(shown))
        itself = holder.run(["turns", "-e", "a", "--", "nothing", word])
        holder.hold_done(f"no number behind -e: {word!r:.30}", itself, 64, "", not_a_number(shown, TWICE))


def hold_wrong_turns_calls(holder):
    for words, said in (
        ([], "pattern and report are missing"),
        (["a"], "the report is missing"),
        (["-e", "a"], "the report is missing"),
        (["--raw"], "pattern and report are missing"),
        (["-e"], "option requires an argument -- 'e'"),
        (["a", "b", "1", "2"], "too many arguments"),
        (["a", "b", "c", "d"], "too many arguments"),
        (["1"] * 10000, "too many arguments"),
        (["-e", "a", "b", "1", "2"], "too many arguments"),
        (["-e", "a", "b", "c", "1"], "too many arguments"),
        (["a", "b", "1", "-e", "c"], "too many arguments"),
        (["-e", "a", "b", "c", "1", "2"], "too many arguments"),
        (["-e", "a", "-e", "b", "c", "1"], "a pattern is given twice"),
        (["-e", "a", "b", "c"], 'MARK is a number, not "c"' + TWICE),
        (["a", "b", "c"], 'MARK is a number, not "c"'),
        (["-", "-"], "pattern and report cannot both be standard input"),
        (["-", "-", "1"], "pattern and report cannot both be standard input"),
        (["-", "-", "x"], "pattern and report cannot both be standard input"),
        (["a", "b", "-1"], "invalid option -- '1'"),
        (["--tree", "a", "b"], "unrecognized option '--tree'"),
        (["--raw=3", "a", "b"], "option '--raw' doesn't allow an argument"),
    ):
        did = holder.run(["turns", *words])
        holder.hold_done(f"a wrong call: turns {words!r:.60}", did, 64, "", f"dimmhalt turns: {said}{try_help('turns')}")


def hold_turns_order(holder):
    """Options before, between and behind the words; - is standard input; what stands behind -- is no option."""
    pattern, report = holder.file("pattern", "a*b*\n"), holder.file("report", "abb")
    raw = "ANSWER 0 9 0\nTURNS 2 2\n"
    for words in (["--raw", pattern, report, "2"], [pattern, "--raw", report, "2"], [pattern, report, "--raw", "2"],
                  [pattern, report, "2", "--raw"], ["--raw", "--", pattern, report, "2"], ["--raw", "-e", "a*b*", report, "2"],
                  [report, "-e", "a*b*", "2", "--raw"], [report, "2", "--raw", "-ea*b*"]):
        holder.hold_done(f"options in another place: turns {words}", holder.run(["turns", *words]), 0, raw)
    for words, given in (([pattern, "-", "2"], b"abb"), (["-", report, "2"], b"a*b*\n"), (["-e", "a*b*", "-", "2"], b"abb")):
        holder.hold_done(f"standard input: turns {words}", holder.run(["turns", "--raw", *words], given), 0, raw)
    holder.hold_done("all marks with -e", holder.run(["turns", "-e", "a*b*", report]), 0, ONE_TREE + listed([(1, 1), (2, 2)]))
    holder.file("2", "abb")
    did = holder.run(["turns", "--raw", "-e", "a*b*", "2", "2"], cwd=holder.folder.name)
    holder.hold_done("a report that is named as a mark", did, 0, raw)


def hold_turns_files(holder):
    """Files that cannot be read, with a MARK and without."""
    for words in ([], ["1"], ["99"]):
        did = holder.run(["turns", "-e", "a", holder.path("nothing"), *words])
        said = f"dimmhalt: {holder.path('nothing')}: No such file or directory\n"
        holder.hold_done(f"no report: turns {words}", did, 64, "", said)
        did = holder.run(["turns", holder.folder.name, "/dev/null", *words])
        holder.hold_done(f"a folder as a pattern: turns {words}", did, 64, "", f"dimmhalt: {holder.folder.name}: Is a directory\n")


def hold_mark(holder):
    hold_turns_help(holder)
    hold_numbers(holder)
    hold_no_numbers(holder)
    hold_wrong_turns_calls(holder)
    hold_turns_order(holder)
    hold_turns_files(holder)
