"""Holds the script dimmhalt: it makes the program when it has to, and runs it.

    python3 tests/command/script.py OBJECT    something that has the calls and answers by DIMMHALT_ANSWER

A copy of the repository without its proofs is used, and an rt that proves nothing and hands the object over as the archive.
"""

import os
import pathlib
import shutil
import sys
import threading

from holding import ONE_TREE, VERSION, Holder, has
from streams import closing
from turns import listed, no_mark

TOP = pathlib.Path(__file__).resolve().parent.parent.parent
PROVING = "dimmhalt: proving the calls; the first time this takes some minutes\n"
PROVED = "dimmhalt: meaning proved\n"
COMPILING = "dimmhalt: compiling the program\n"
MAKING = PROVING + PROVED + COMPILING
ASKED = "dimmhalt: lib\n"
NOT_BUILT = "dimmhalt: the library walks did not build\n"
NO_RT = "dimmhalt: rt, the Rattle kit's command, is not on the PATH\n"
NO_COMPILER = "dimmhalt: there is no C compiler, cc, on the PATH\n"
TOOLS = "bash sh env cat cp dirname find flock mkdir mv readlink rm sed sleep tee touch".split()
COMPILERS = "cc gcc as ld".split()

# What rt says of a crate that it proves, and of one that it does not.
RT = """#!/bin/sh
echo "${{PWD##*/crates/}}: $*" >>{calls}
echo "rt: meaning: begins with what a check kept in elsewhere"
echo "rt: chose --jobs 2 for meaning"
echo "rt: rt check --fix-imports removes those imports"
echo "fn meaning::record: proved"
echo "crate meaning: modules loaded=0 checked=12"
echo "logic=proved functions=1"
sleep "${{RT_SLEEPS:-0}}"
if [ "${{RT_STATUS:-0}}" != 0 ]; then
    echo "crate walks: modules loaded=3 checked=9"
    echo "logic=not-proved"
    echo "rt: the library walks did not build" >&2
    exit "$RT_STATUS"
fi
mkdir -p out
[ -n "${{RT_NOTHING:-}}" ] || cp {object} out/libdimmhalt.a
"""


class Copy(Holder):
    """A copy of what the script needs, with folders of programs in the place of the PATH."""

    def __init__(self, given):
        super().__init__([])
        self.top = pathlib.Path(self.path("copy"))
        self.words = [str(self.top / "dimmhalt")]
        for name in ("dimmhalt", "meaning"):
            (self.top / "crates" / name).mkdir(parents=True)
            (self.top / "crates" / name / "lib.rt").write_text("")
        for name in ("dimmhalt", "crates.txt"):
            shutil.copy(TOP / name, self.top / name)
        for name in ("include", "command"):
            shutil.copytree(TOP / name, self.top / name)
        self.programs("tools", TOOLS)
        self.programs("compilers", COMPILERS)
        self.programs("rt", [])
        self.file("rt/rt", RT.format(calls=self.path("calls"), object=given))
        os.chmod(self.path("rt/rt"), 0o755)

    def programs(self, folder, names):
        os.mkdir(self.path(folder))
        for name in filter(shutil.which, names):
            os.symlink(shutil.which(name), self.path(f"{folder}/{name}"))

    def call(self, words, given=b"", path=("rt", "tools", "compilers"), **others):
        """Calls the script with nothing but these folders on the PATH."""
        changes = {"PATH": ":".join(map(self.path, path)), "DIMMHALT_ANSWER": "0 1 0 353", **others.pop("changes", {})}
        return self.run(words, given, changes, **others)

    def forget(self):
        """As before the first use."""
        shutil.rmtree(self.top / "target", ignore_errors=True)
        shutil.rmtree(self.top / "crates" / "dimmhalt" / "out", ignore_errors=True)
        self.file("calls", "")

    def calls(self):
        with open(self.path("calls"), encoding="utf-8") as calls:
            return calls.read()

    def log(self):
        return (self.top / "target" / "command" / "log").read_bytes()


JUDGED = ["judge", "-e", "a", "-"]


def hold_making(copy):
    copy.forget()
    copy.hold_done("the first use", copy.call(JUDGED, b"a"), 0, ONE_TREE, MAKING)
    copy.hold_done("the second use", copy.call(JUDGED, b"a"), 0, ONE_TREE)
    copy.hold("rt was asked once, where the crate is", copy.calls(), ASKED)
    for name in ("crates/meaning/lib.rt", "crates.txt", "include/dimmhalt.h", "command/judge.c", "command/build"):
        os.utime(copy.top / name)
        copy.hold_done(f"{name} is newer", copy.call(JUDGED, b"a"), 0, ONE_TREE, MAKING)
        copy.hold_done(f"{name} is newer no more", copy.call(JUDGED, b"a"), 0, ONE_TREE)
    for crate in ("dimmhalt", "meaning"):
        kept = copy.top / "crates" / crate / "out" / "incremental"
        kept.mkdir(parents=True, exist_ok=True)
        (kept / "checked").write_text("")
    copy.hold_done("what rt keeps is newer", copy.call(JUDGED, b"a"), 0, ONE_TREE)
    shutil.rmtree(copy.top / "crates" / "dimmhalt" / "out")
    copy.hold_done("what rt keeps is gone", copy.call(JUDGED, b"a"), 0, ONE_TREE)
    copy.hold("the archive is kept", (copy.top / "target" / "staticlib" / "libdimmhalt.a").exists(), True)


def hold_passing_on(copy):
    """Words, streams, statuses and the caller's folder are handed on as they are."""
    copy.file("a b\n", "a")
    did = copy.call(["judge", "-e", "a", "a b\n", "--tree"], cwd=copy.folder.name)
    copy.hold_done("a file of the caller's folder", did, 0, ONE_TREE + '\nreport    "a"\n')
    os.symlink(copy.top / "dimmhalt", copy.path("link"))
    os.symlink("link", copy.path("link to it"))
    through, copy.words = copy.words, ["./link to it"]
    copy.hold_done("through links", copy.call(["judge", "-e", "a", "a b\n"], cwd=copy.folder.name), 0, ONE_TREE)
    copy.words = through
    copy.hold_done("an empty word", copy.call([""]), 64, "", has('dimmhalt: there is no verb ""\n'))
    copy.hold_done("no words", copy.call([]), 64, "", has("Usage: dimmhalt [OPTION...] VERB ...\n"))
    copy.hold_done("the version", copy.call(["--version"]), 0, VERSION)
    copy.hold_done("a wrong file", copy.call(["judge", "nothing", "nothing"]), 64, "", "dimmhalt: nothing: No such file or directory\n")
    several = copy.call(JUDGED, b"a", changes={"DIMMHALT_ANSWER": "0 1 1 353"})
    copy.hold("a status", several.status, 1)
    one_mark = {"DIMMHALT_READ_ANSWER": "0 0 1 1", "DIMMHALT_TURNS_ANSWER": "0 1"}
    copy.hold_done("turns", copy.call(["turns", "-e", "a", "-"], b"a", changes=one_mark), 0, ONE_TREE + listed([(1, 1)]))
    copy.hold_done("a refused mark", copy.call(["turns", "-e", "a", "-", "2"], b"a", changes=one_mark), 5, no_mark("mark 1 alone"))


def hold_streams_of_script(copy):
    copy.hold("a closed output", copy.call(JUDGED, b"a", **closing(1)).status, 74)
    copy.hold_done("a closed input", copy.call(JUDGED, stdin=None, **closing(0)), 74, "", "dimmhalt: standard input: Bad file descriptor\n")
    copy.forget()
    copy.hold_done("closed errors at the first use", copy.call(JUDGED, b"a", **closing(2)), 0, ONE_TREE)
    copy.forget()
    did = copy.call(["judge", "-e", "a", "/dev/null"], stdin=None, changes={"DIMMHALT_ANSWER": "0 0 0"}, **closing(0))
    copy.hold_done("a closed input at the first use", did, 0, ONE_TREE, MAKING)


def hold_two_at_once(copy):
    copy.forget()
    done = []
    runs = [threading.Thread(target=lambda: done.append(copy.call(JUDGED, b"a", changes={"RT_SLEEPS": "1"}))) for _ in range(3)]
    for run in runs:
        run.start()
    for run in runs:
        run.join()
    copy.hold("runs at once all answer", [(did.status, did.out) for did in done], [(0, ONE_TREE.encode())] * 3)
    waiting = b"dimmhalt: waiting for another run, which makes the program\n"
    copy.hold("one of them makes the program", sorted(did.err for did in done), sorted([MAKING.encode(), waiting, waiting]))
    copy.hold("rt was asked once by all", copy.calls(), ASKED)


def hold_failures(copy):
    says_why = "target/command/log says why\n"
    copy.forget()
    copy.hold_done("no rt", copy.call(JUDGED, path=("tools", "compilers")), 70, "", NO_RT)
    did = copy.call(JUDGED, changes={"RT_STATUS": "1"})
    copy.hold_done("a proof that fails", did, 70, "", PROVING + PROVED + NOT_BUILT + "dimmhalt: the calls are not proved; " + says_why)
    copy.hold("the log has all", has("rt: chose --jobs 2 for meaning\n", "logic=not-proved\n")(copy.log()), True)
    did = copy.call(JUDGED, changes={"RT_NOTHING": "1"})
    copy.hold_done("no archive", did, 70, "", PROVING + PROVED + "dimmhalt: rt wrote no archive of the calls; " + says_why)
    copy.hold_done("no compiler", copy.call(JUDGED, path=("rt", "tools")), 70, "", NO_COMPILER)
    copy.hold_done("then all is there", copy.call(JUDGED, b"a"), 0, ONE_TREE, MAKING)
    with open(copy.top / "command" / "judge.c", "a", encoding="utf-8") as source:
        source.write("no C\n")
    copy.hold_done("no C", copy.call(JUDGED), 70, "", MAKING + "dimmhalt: the program could not be compiled; " + says_why)
    copy.hold("the log has the compiler's words", has("judge.c", "error")(copy.log()), True)
    shutil.copy(TOP / "command" / "judge.c", copy.top / "command" / "judge.c")
    copy.forget()
    (copy.top / "target").mkdir()
    (copy.top / "target" / "staticlib").write_text("")
    did = copy.call(JUDGED)
    copy.hold_done("no folder for the archive", did, 70, "", PROVING + PROVED + "dimmhalt: the archive of the calls could not be kept; " + says_why)
    copy.forget()
    (copy.top / "target").write_text("")
    copy.hold_done("a target that is no folder", copy.call(JUDGED), 70, "", "dimmhalt: the folder target/command cannot be written\n")
    os.remove(copy.top / "target")


def main(given):
    copy = Copy(given)
    hold_making(copy)
    hold_passing_on(copy)
    hold_streams_of_script(copy)
    hold_two_at_once(copy)
    hold_failures(copy)
    return copy.tally("the script")


if __name__ == "__main__":
    sys.exit(main(*sys.argv[1:]))
