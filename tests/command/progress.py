"""The line that says how many reports of a night are read: on a terminal, where there are many, and gone at the end."""

import os
import pty
import subprocess

from sheet import raw_sheet
from streams import read_all

MANY, FEW = 50, 49


def errors_on_terminal(holder, words):
    """Exit status, output, and what is written to standard error where that is a terminal."""
    master, slave = pty.openpty()
    streams = {"stdin": subprocess.DEVNULL, "stdout": subprocess.PIPE, "stderr": slave}
    with subprocess.Popen([*holder.words, *words], env=holder.environment({}), **streams) as program:
        os.close(slave)
        seen = read_all(master)
        out = program.stdout.read()
    os.close(master)
    return program.returncode, out, seen.replace(b"\r\n", b"\n").decode()


def steps(last, of):
    """What the line says in turn, up to so many reports, and how it is taken away."""
    lines = [f"\rdimmhalt: {read:,} of {of:,} reports read" for read in range(last + 1)]
    return "".join(lines) + "\r" + " " * (len(lines[-1]) - 1) + "\r"


def sheet_of(count):
    return raw_sheet([0] * count, [(count, count, 1)], [count]).encode()


def hold_progress(holder):
    report, last = holder.file("report", "a"), holder.file("last", "0\n")
    words = ["sheet", "--last", last, "--raw", "-e"]
    seen = errors_on_terminal(holder, [*words, "a*", *[report] * MANY])
    holder.hold("many reports on a terminal", seen, (0, sheet_of(MANY), steps(MANY, MANY)))
    seen = errors_on_terminal(holder, [*words, "a*", *[report] * FEW])
    holder.hold("few reports on a terminal", seen, (0, sheet_of(FEW), ""))
    holder.hold_done("many reports, and no terminal", holder.run([*words, "a*", *[report] * MANY]), 0, sheet_of(MANY))
    nothing = holder.path("nothing")
    seen = errors_on_terminal(holder, [*words, "a*", *[report] * 7, nothing, *[report] * MANY])
    said = f"dimmhalt: {nothing}: No such file or directory\n"
    holder.hold("a report that is missing", seen, (64, b"", steps(7, MANY + 8) + said))
    seen = errors_on_terminal(holder, [*words, ")", *[report] * 1000])
    said = "dimmhalt: pattern: refused, number 4: it is not written by the rules\n"
    holder.hold("a refused pattern", seen, (3, b"", steps(1000, 1000) + said))
