"""Runs the program under test and holds what it does to what is wanted."""

import os
import subprocess
import tempfile
import time

SHOWN = 600
QUICK = 10  # seconds, on a machine that is busy; what is done in far too many steps takes longer
VERSION = "dimmhalt 1.2\n"
ONE_TREE = "One tree: the report fits the pattern, in exactly one way.\n"
SEVERAL = "More than one tree: the report fits the pattern, but it could mean something else"
NO_TREE = "No tree, number 8: the report does not fit the pattern.\n"
PATTERN_TOO_LONG = "The pattern is refused, number 1: it has more than 512 bytes.\n"
REPORT_TOO_LONG = "The report is refused, number 2: it has more than 4,096 bytes.\n"
NOT_WRITTEN = "The pattern is refused, number 4: it is not written by the rules.\n"
TOO_DEEP = "The pattern is refused, number 5: its groups stand more than 64 deep in each other.\n"
MANY_PLACES = "The pattern is refused, number 6: more than 64 places of it read a byte.\n"
MANY_MARKS = "The pattern is refused, number 7: it has more than 64 branches and repeated parts.\n"
FIGURES = {"first_tree": ("value", "flag"), "read": ("value", "positions", "marks"), "turns": ("count",), "sheet": ("value",)}


def as_bytes(text):
    return text if isinstance(text, bytes) else text.encode()


class Did:
    """What a run did: exit status, standard output, standard error, seconds."""

    def __init__(self, status, out, err, seconds):
        self.status, self.out, self.err, self.seconds = status, out, err, seconds


class Holder:
    """The words that start the program, a folder for files, and the tally."""

    def __init__(self, words):
        self.words = list(words)
        self.folder = tempfile.TemporaryDirectory()
        self.passed = self.failed = 0

    def path(self, name):
        return os.path.join(self.folder.name, name)

    def file(self, name, content):
        with open(self.path(name), "wb") as file:
            file.write(as_bytes(content))
        return self.path(name)

    def run(self, arguments, given=b"", environment=None, prefix=(), **others):
        """Runs the program. `others` go to subprocess, such as stdout, for streams that are not read."""
        streams = {"stdout": subprocess.PIPE, "stderr": subprocess.PIPE, **others}
        if "stdin" not in streams:
            streams["input"] = given
        began = time.monotonic()
        done = subprocess.run([*prefix, *self.words, *arguments], env=self.environment(environment), timeout=300, **streams)
        return Did(done.returncode, done.stdout, done.stderr, time.monotonic() - began)

    def environment(self, changes):
        """That of the tests without what changes the program's words, and with changes; None takes a variable away."""
        kept = {name: value for name, value in os.environ.items() if name not in ("NO_COLOR", "POSIXLY_CORRECT", "ARGP_HELP_FMT")}
        kept.update(changes or {})
        return {name: value for name, value in kept.items() if value is not None}

    def hold(self, what, got, wanted):
        """Counts whether two values are the same."""
        if got == wanted:
            self.passed += 1
            return
        self.failed += 1
        print(f"command: {what}:\n  got    {repr(got)[:SHOWN]}\n  wanted {repr(wanted)[:SHOWN]}")

    def hold_done(self, what, did, status, out, err=""):
        """Holds status and both outputs at once. A function in the place of an output looks at it."""
        seen = [did.status]
        wanted = [status]
        for got, want in ((did.out, out), (did.err, err)):
            if callable(want):
                seen.append(got if not want(got) else True)
                wanted.append(True)
            else:
                seen.append(got)
                wanted.append(as_bytes(want))
        self.hold(what, seen, wanted)

    def hold_judge(self, what, pattern, report, status, out, *options):
        """Judges a report, both in files."""
        did = self.run(["judge", *options, self.file("pattern", pattern), self.file("report", report)])
        self.hold_done(what, did, status, out)

    def tally(self, name):
        self.folder.cleanup()
        print(f"command: {name}: {self.passed} passed, {self.failed} failed")
        return 1 if self.failed else 0


def has(*parts):
    """Looks at an output: does it have all of these in it?"""
    return lambda output: all(as_bytes(part) in output for part in parts)


def said(call, number, *figures):
    """The line for an answer that cannot be."""
    named = [f"{name} {figure}" for name, figure in zip(FIGURES[call], figures, strict=True)]
    joined = " and ".join([", ".join(named[:-1]), named[-1]] if len(named) > 1 else named)
    return f"dimmhalt: internal: dimmhalt_{call} answered {number} with {joined}, which cannot be\n"
