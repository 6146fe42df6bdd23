"""Standard streams that are closed, full or a terminal."""

import os
import pty
import resource
import subprocess

from holding import NO_TREE, ONE_TREE, SEVERAL, TOO_DEEP
from sheet import in_words, raw_sheet
from turns import OF_FIRST, no_mark

LOST = "dimmhalt: standard output: not all could be written\n"
DIM, PLAIN, GREEN, YELLOW, RED = "\033[2m", "\033[0m", "\033[1;32m", "\033[1;33m", "\033[1;31m"


def closing(*streams):
    """Closes streams in the program before it starts."""

    def close():
        for stream in streams:
            os.close(stream)

    return {"preexec_fn": close}


def hold_lost_output(holder):
    """Closed, full, or a pipe that none reads: 74, whatever was to be said."""
    report = holder.file("report", "a" * 4000)
    judged, counted = ["judge", "-e", "a*", report], ["turns", "-e", "a*", report]
    night = ["sheet", "-e", "a*", "--last", holder.file("last", "1\n"), report]
    helps = ["--help"], ["judge", "--help"], ["turns", "--help"], ["sheet", "--help"], ["--version"], ["--usage"]
    reader, writer = os.pipe()
    os.close(reader)
    with open("/dev/full", "wb") as full:
        calls = judged, [*judged, "--tree"], [*judged, "--raw"], counted, [*counted, "--raw"], [*counted, "2"], night, [*night, "--raw"]
        for words in (*calls, *helps):
            for what, others in (("full", {"stdout": full}), ("unread", {"stdout": writer}), ("closed", closing(1))):
                did = holder.run(words, **others)
                holder.hold(f"a {what} output: {words[0]} {words[-1]}", [did.status, did.err], [74, LOST.encode()])
    os.close(writer)


def hold_limited_output(holder):
    """A file that may not grow so long."""
    with open(holder.path("output"), "wb") as output:
        limit = {"preexec_fn": lambda: resource.setrlimit(resource.RLIMIT_FSIZE, (1000, 1000))}
        did = holder.run(["judge", "-e", "a*", holder.file("report", "a" * 4000), "--raw"], stdout=output, **limit)
    holder.hold("an output past the limit of a file", [did.status, did.err], [74, LOST.encode()])


def hold_closed(holder):
    """No file takes the number of a stream that is closed."""
    pattern, report = holder.file("pattern", "a"), holder.file("report", "a")
    judged = ["judge", pattern, report]
    holder.hold_done("closed input that is not read", holder.run(judged, stdin=None, **closing(0)), 0, ONE_TREE)
    did = holder.run(["judge", pattern, "-"], stdin=None, **closing(0))
    holder.hold_done("closed input that is read", did, 74, "", "dimmhalt: standard input: Bad file descriptor\n")
    holder.hold_done("closed errors that are not written", holder.run(judged, **closing(2)), 0, ONE_TREE)
    holder.hold("closed errors", holder.run(["judge"], **closing(2)).status, 64)
    holder.hold("all closed", holder.run(judged, stdin=None, **closing(0, 1, 2)).status, 74)
    holder.hold("all closed, and a wrong call", holder.run(["judge"], stdin=None, **closing(0, 1, 2)).status, 64)
    did = holder.run(["judge", "-e", "a", holder.path("nothing")], **closing(1))
    said = f"dimmhalt: {holder.path('nothing')}: No such file or directory\n"
    holder.hold("closed output that is not written", [did.status, did.err], [64, said.encode()])
    holder.hold_done("what was read is as it was", holder.run(["judge", "-e", "a", report]), 0, ONE_TREE)


def on_terminal(holder, words, environment):
    """What the program writes to a terminal, which puts a carriage return before each line end."""
    master, slave = pty.openpty()
    with subprocess.Popen([*holder.words, *words], stdin=subprocess.DEVNULL, stdout=slave, env=holder.environment(environment)) as program:
        os.close(slave)
        seen = read_all(master)
    os.close(master)
    return program.returncode, seen.replace(b"\r\n", b"\n").decode()


def read_all(master):
    """What comes until the other end is closed, which is an error of a terminal."""
    seen = b""
    try:
        while piece := os.read(master, 65536):
            seen += piece
    except OSError:
        pass
    return seen


def hold_colour(holder):
    judged = ["judge", "-e", "a*b*b*", holder.file("report", "ab"), "--tree"]
    words = SEVERAL + ". The tree below is the first.\n"
    plain = words + '\nreport    "ab"\nmark  1     "a"\nmark  2     "b"\n'
    first, rest = words.split(":", 1)
    painted = f'{YELLOW}{first}{PLAIN}:{rest}\n{DIM}report{PLAIN}    "ab"\n{DIM}mark  1{PLAIN}     "a"\n{DIM}mark  2{PLAIN}     "b"\n'
    for what, environment, wanted in (
        ("a terminal", {"TERM": "xterm"}, painted),
        ("NO_COLOR that is empty", {"TERM": "xterm", "NO_COLOR": ""}, painted),
        ("NO_COLOR", {"TERM": "xterm", "NO_COLOR": "1"}, plain),
        ("a dumb terminal", {"TERM": "dumb"}, plain),
        ("a terminal of no kind", {"TERM": None}, plain),
    ):
        holder.hold(f"on {what}", on_terminal(holder, judged, environment), (1, wanted))
    holder.hold_done("not on a terminal", holder.run(judged, environment={"TERM": "xterm"}), 1, plain)


def hold_colour_of_words(holder):
    """The verdict alone is painted."""
    terminal = {"TERM": "xterm"}
    report = holder.file("report", "b")
    for pattern, status, paint, words in (
        ("b", 0, GREEN, ONE_TREE),
        ("a", 2, RED, NO_TREE + 'Its first byte, "b", cannot stand there (line 1, byte 1 of it).\n'),
        ("(" * 65 + ")" * 65, 3, RED, TOO_DEEP),
    ):
        first, rest = words.split(":", 1)
        seen = on_terminal(holder, ["judge", "-e", pattern, report], terminal)
        holder.hold(f"painted words: {first}", seen, (status, f"{paint}{first}{PLAIN}:{rest}"))
    raw = on_terminal(holder, ["judge", "-e", "b*", report, "--raw"], terminal)
    holder.hold("raw lines are never painted", raw, (0, "ANSWER 0 3 0\nTREE o1 b98 c1\n"))


def hold_colour_of_turns(holder):
    """Of the counts the marks are painted, as in an outline."""
    terminal = {"TERM": "xterm"}
    counted = ["turns", "-e", "a*b*b*", holder.file("report", "abb")]
    first, rest = OF_FIRST.split(":", 1)
    painted = f"{YELLOW}{first}{PLAIN}:{rest}\nTurns that read text:\n"
    painted += "".join(f"{DIM}mark  {mark}{PLAIN}     {count}\n" for mark, count in enumerate((1, 2, 0), 1))
    holder.hold("painted counts", on_terminal(holder, counted, terminal), (1, painted))
    first, rest = no_mark("marks 1 to 3").split(":", 1)
    holder.hold("a painted refusal of a mark", on_terminal(holder, [*counted, "4"], terminal), (5, f"{RED}{first}{PLAIN}:{rest}"))
    raw = on_terminal(holder, [*counted, "--raw"], terminal)
    holder.hold("raw counts are never painted", raw, (1, "ANSWER 0 9 1\nTURNS 1 1\nTURNS 2 2\nTURNS 3 0\n"))


def hold_colour_of_sheet(holder):
    """Of a sheet the number of reports is painted, the headings and marks, and of a refused report the verdict."""
    good, bad = holder.file("good", "aa"), holder.file("bad", "b")
    night = ["sheet", "-e", "a*", "--last", holder.file("last", "1\n")]
    table = in_words(["x"], [0], [(2, 2, 1)], [1]).split("\n", 2)[2]
    headings, mark = table.splitlines()
    painted = f"\n{DIM}{headings}{PLAIN}\n{DIM}{mark[:7]}{PLAIN}{mark[7:]}\n"
    whole = f"{GREEN}1 report{PLAIN}: 1 fits the pattern, 0 are refused.\n{painted}"
    holder.hold("a painted sheet", on_terminal(holder, [*night, good], {"TERM": "xterm"}), (0, whole))
    first, rest = NO_TREE.split(":", 1)
    whole = f"{RED}2 reports{PLAIN}: 1 fits the pattern, 1 is refused.\n{painted}\nRefused:\n{bad}: {RED}{first}{PLAIN}:{rest}"
    holder.hold("a painted sheet, one report refused", on_terminal(holder, [*night, good, bad], {"TERM": "xterm"}), (2, whole))
    raw = on_terminal(holder, [*night, good, "--raw"], {"TERM": "xterm"})
    holder.hold("a raw sheet is never painted", raw, (0, raw_sheet([0], [(2, 2, 1)], [1])))


def hold_streams(holder):
    hold_lost_output(holder)
    hold_limited_output(holder)
    hold_closed(holder)
    hold_colour(holder)
    hold_colour_of_words(holder)
    hold_colour_of_turns(holder)
    hold_colour_of_sheet(holder)
