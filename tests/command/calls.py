"""How the program is called: help, version, wrong calls, where options may stand, words that are no text."""

import os

from holding import ONE_TREE, REPORT_TOO_LONG, VERSION, Holder, has

TRY_ALONE = "\nTry `dimmhalt --help' or `dimmhalt --usage' for more information.\n"
ANSWERS = """\
  0   0  the report fits the pattern, in exactly one way
  0   1  the report fits the pattern, but it could mean something else
  8   2  the report does not fit the pattern
  1   3  pattern refused: it has more than 512 bytes
  4   3  pattern refused: it is not written by the rules
  5   3  pattern refused: its groups stand more than 64 deep in each other
  6   3  pattern refused: more than 64 places of it read a byte
  7   3  pattern refused: it has more than 64 branches and repeated parts
  2   4  report refused: it has more than 4,096 bytes
"""
STATUSES = """\
     64  wrong call, or a file that cannot be opened
     70  an internal mistake
     74  input or output failed
"""


def try_help(verb):
    return f"\nTry `dimmhalt {verb} --help' or `dimmhalt {verb} --usage' for more information.\n"


def hold_help(holder):
    for words in (["--help"], ["-?"], ["--help", "nothing"]):
        out = has("Usage: dimmhalt [OPTION...] VERB ...\n", "\n  judge  ", "\n  turns  ", "\n  sheet  ", "--version")
        holder.hold_done(f"help: {words}", holder.run(words), 0, out)
    for words in (["judge", "--help"], ["judge", "--tree", "a", "--help"], ["--", "judge", "--help"]):
        usages = ("Usage: dimmhalt judge [OPTION...] PATTERN REPORT\n", "  or:  dimmhalt judge [OPTION...] -e PATTERN REPORT\n")
        holder.hold_done(f"help: {words}", holder.run(words), 0, has(*usages, "--tree", "--raw", "\n" + ANSWERS + STATUSES))
    holder.hold_done("usage", holder.run(["judge", "--usage"]), 0, has("Usage: dimmhalt judge", "[-e PATTERN]"))
    for words in (["--version"], ["-V"], ["judge", "--version"]):
        holder.hold_done(f"version: {words}", holder.run(words), 0, VERSION)


def hold_wrong_calls(holder):
    for words, said in (
        ([], "Usage: dimmhalt [OPTION...] VERB ..."),
        (["--"], "Usage: dimmhalt [OPTION...] VERB ..."),
        (["jugde"], 'dimmhalt: there is no verb "jugde"'),
        ([""], 'dimmhalt: there is no verb ""'),
        (["judge\n\x1b[2J"], 'dimmhalt: there is no verb "judge\\n\\x1b[2J"'),
        ([b"\xff\xfe"], 'dimmhalt: there is no verb "\\xff\\xfe"'),
        (["v" * 100000], f'dimmhalt: there is no verb "{"v" * 31}" ... "{"v" * 20}"'),
        (["--nonsense", "judge"], "dimmhalt: unrecognized option '--nonsense'"),
        (["--tree", "judge"], "dimmhalt: unrecognized option '--tree'"),
    ):
        holder.hold_done(f"a wrong call: {words!r:.60}", holder.run(words), 64, "", said + TRY_ALONE)


def hold_wrong_judge_calls(holder):
    for words, said in (
        ([], "pattern and report are missing"),
        (["a"], "the report is missing"),
        (["-e", "a"], "the report is missing"),
        (["-e"], "option requires an argument -- 'e'"),
        (["a", "b", "c"], "too many arguments"),
        (["a"] * 10000, "too many arguments"),
        ([""] * 10000, "too many arguments"),
        (["-e", "a", "b", "c"], "a pattern is given twice"),
        (["-e", "a", "-e", "b", "c"], "a pattern is given twice"),
        (["-", "-"], "pattern and report cannot both be standard input"),
        (["--", "-", "-"], "pattern and report cannot both be standard input"),
        (["--tree", "--raw", "a", "b"], "--tree and --raw exclude each other"),
        (["a", "b", "--raw", "--tree"], "--tree and --raw exclude each other"),
        (["--nonsense", "a", "b"], "unrecognized option '--nonsense'"),
        (["-x", "a", "b"], "invalid option -- 'x'"),
        (["-t", "a", "b"], "invalid option -- 't'"),
        (["--tree=3", "a", "b"], "option '--tree' doesn't allow an argument"),
    ):
        did = holder.run(["judge", *words])
        holder.hold_done(f"a wrong call: judge {words!r:.60}", did, 64, "", f"dimmhalt judge: {said}{try_help('judge')}")


def hold_order(holder):
    """Options before, between and behind the files; what stands behind -- is a file."""
    pattern, report = holder.file("pattern", "a"), holder.file("report", "a")
    raw = "ANSWER 0 1 0\nTREE b97\n"
    for words in (["--raw", pattern, report], [pattern, "--raw", report], [pattern, report, "--raw"], ["--raw", "--", pattern, report],
                  ["--raw", "--raw", pattern, report], [report, "--raw", "-e", "a"], ["--ra", pattern, report]):
        holder.hold_done(f"options in another place: {words}", holder.run(["judge", *words]), 0, raw)
    holder.file("--raw", "a")
    did = holder.run(["judge", "--", "--raw", "--raw"], cwd=holder.folder.name)
    holder.hold_done("a file that is named as an option", did, 0, ONE_TREE)


def hold_standard_input(holder):
    pattern, report = holder.file("pattern", "a\n"), holder.file("report", "a")
    holder.hold_done("the report from standard input", holder.run(["judge", pattern, "-"], b"a"), 0, ONE_TREE)
    holder.hold_done("the pattern from standard input", holder.run(["judge", "-", report], b"a\n"), 0, ONE_TREE)
    holder.hold_done("-e, and the report from standard input", holder.run(["judge", "-e", "a.", "-"], b"a\n"), 0, ONE_TREE)
    holder.hold_done("an empty standard input", holder.run(["judge", "-e", "a*", "-"]), 0, ONE_TREE)
    holder.hold_done("-e with -", holder.run(["judge", "-e", "-", "-"], b"-"), 0, ONE_TREE)
    long = holder.run(["judge", "-e", "a*", "-"], b"a" * 1000000)
    holder.hold_done("a long standard input", long, 4, REPORT_TOO_LONG)


def hold_names_of_the_program(holder):
    """What the program is called does not change its words. Where another program starts it, that one has its name."""
    if len(holder.words) > 1:
        return
    for name in ("", "other", "a/b\n"):
        did = Holder([name]).run(["jugde"], executable=os.path.abspath(holder.words[0]))
        holder.hold_done(f"called as {name!r}", did, 64, "", 'dimmhalt: there is no verb "jugde"' + TRY_ALONE)


def hold_calls(holder):
    hold_help(holder)
    hold_wrong_calls(holder)
    hold_wrong_judge_calls(holder)
    hold_order(holder)
    hold_standard_input(holder)
    hold_names_of_the_program(holder)
