"""Files of all kinds, right and wrong."""

import os
import subprocess
import threading

from holding import ONE_TREE, PATTERN_TOO_LONG, QUICK, REPORT_TOO_LONG


def hold_wrong_file(holder, what, name, status, said, shown=None, **others):
    """As a report and as a pattern, a wrong file gets one line on standard error."""
    good = holder.file("good", "a")
    line = f"dimmhalt: {name if shown is None else shown}: {said}\n"
    holder.hold_done(f"{what}, as a report", holder.run(["judge", "-e", "a", name], **others), status, "", line)
    holder.hold_done(f"{what}, as a pattern", holder.run(["judge", name, good], **others), status, "", line)


def hold_wrong_files(holder):
    missing, folder = "No such file or directory", "Is a directory"
    hold_wrong_file(holder, "no file", holder.path("nothing"), 64, missing)
    hold_wrong_file(holder, "an empty name", "", 64, missing)
    hold_wrong_file(holder, "a name with a line end", "a\nb\t\x1b[2J", 64, missing, "a\\nb\\t\\x1b[2J")
    hold_wrong_file(holder, "a name that is no text", b"\xff\xfe", 64, missing, "\\xff\\xfe")
    hold_wrong_file(holder, "a folder", holder.folder.name, 64, folder)
    hold_wrong_file(holder, "a name below a file", holder.file("good", "a") + "/b", 64, "Not a directory")
    hold_wrong_file(holder, "a name that is too long", "n" * 5000, 64, "File name too long")
    os.symlink("loop", holder.path("loop"))
    hold_wrong_file(holder, "a link to itself", holder.path("loop"), 64, "Too many levels of symbolic links")
    hold_wrong_file(holder, "a file whose read breaks off", "/proc/self/mem", 74, "Input/output error")
    descriptor = os.open(holder.folder.name, os.O_RDONLY)
    hold_wrong_file(holder, "a folder as standard input", "-", 64, folder, "standard input", stdin=descriptor)
    os.close(descriptor)


def hold_unreadable(holder):
    """A file that none may read. The superuser may read all, unless it is started without that right."""
    name = holder.file("unreadable", "a")
    os.chmod(name, 0)
    rights = "-dac_override,-dac_read_search"
    prefix = ("setpriv", f"--bounding-set={rights}", f"--inh-caps={rights}") if os.geteuid() == 0 else ()
    hold_wrong_file(holder, "a file that may not be read", name, 64, "Permission denied", prefix=prefix)


def hold_endless_files(holder):
    """What has no end, or a far one, is refused at once by the calls."""
    with open(holder.path("far"), "wb") as file:
        file.truncate(10 << 30)
    for what, name in (("/dev/zero", "/dev/zero"), ("10 GB", holder.path("far"))):
        report = holder.run(["judge", "-e", "a", name])
        holder.hold_done(f"{what} as a report", report, 4, REPORT_TOO_LONG)
        pattern = holder.run(["judge", name, name])
        holder.hold_done(f"{what} as a pattern and as a report", pattern, 3, PATTERN_TOO_LONG)
        holder.hold(f"{what} is refused at once", report.seconds < QUICK and pattern.seconds < QUICK, True)
    with open("/dev/zero", "rb") as zero:
        holder.hold_done("/dev/zero as standard input", holder.run(["judge", "-e", "a", "-"], stdin=zero), 4, REPORT_TOO_LONG)


def write_in_pieces(name, pieces):
    for piece in pieces:
        with open(name, "wb", buffering=0) as file:
            file.write(piece)


def hold_pipes(holder):
    """A named pipe, and a pipe that hands over a byte at a time: a read that brings little is not the end."""
    name = holder.path("pipe")
    os.mkfifo(name)
    writer = threading.Thread(target=write_in_pieces, args=(name, [b"ab"]))
    writer.start()
    holder.hold_done("a named pipe", holder.run(["judge", "-e", "ab", name]), 0, ONE_TREE)
    writer.join()
    slowly = "for i in 1 2 3 4 5; do printf a; sleep 0.02; done"
    with subprocess.Popen(["sh", "-c", slowly], stdout=subprocess.PIPE) as source:
        holder.hold_done("a byte at a time", holder.run(["judge", "-e", "aaaaa", "-"], stdin=source.stdout), 0, ONE_TREE)


def hold_files(holder):
    hold_wrong_files(holder)
    hold_unreadable(holder)
    hold_endless_files(holder)
    hold_pipes(holder)
    same = holder.file("same", "abc")
    holder.hold_done("one file as both", holder.run(["judge", same, same]), 0, ONE_TREE)
    holder.hold_done("an empty file that is no file", holder.run(["judge", "-e", "a*", "/dev/null"]), 0, ONE_TREE)
