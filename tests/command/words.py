"""The answers in words, and their exit statuses."""

from holding import MANY_MARKS, MANY_PLACES, NO_TREE, NOT_WRITTEN, ONE_TREE, PATTERN_TOO_LONG, REPORT_TOO_LONG, SEVERAL, TOO_DEEP

EMPTY = "It is empty, and something is missing.\n"
UNFINISHED_REPORT = NO_TREE + "All of it begins a report that fits, but something is missing at its end.\n"
UNFINISHED_PATTERN = NOT_WRITTEN + "All of it begins some pattern, but something is missing at its end.\n"


def after(count, some, byte, line, place):
    """The sentence for a byte that cannot stand where it stands."""
    begins = {0: "Its first byte", 1: f"Its first byte begins {some}; the byte after it"}
    words = begins.get(count, f"Its first {count:,} bytes begin {some}; the byte after them")
    return f'{words}, "{byte}", cannot stand there (line {line:,}, byte {place:,} of it).\n'


def wrong_report(count, byte, line, place):
    return NO_TREE + after(count, "a report that fits", byte, line, place)


def wrong_pattern(count, byte, line, place):
    return NOT_WRITTEN + after(count, "some pattern", byte, line, place)


def hold_examples(holder, examples):
    nightly, report = examples / "nightly.pattern", (examples / "nightly.report").read_bytes()
    holder.hold_judge("the example fits in one way", nightly.read_bytes(), report, 0, ONE_TREE)
    holder.hold_judge("the example fits in several", (examples / "ambiguous.pattern").read_bytes(), report, 1, SEVERAL + ".\n")
    holder.hold_judge("a torn report", nightly.read_bytes(), report[:120], 2, UNFINISHED_REPORT)
    holder.hold_judge("a wrong byte", nightly.read_bytes(), report.replace(b"1204", b"12o4"), 2, wrong_report(73, "o", 3, 16))


def hold_places(holder):
    holder.hold_judge("a wrong byte after a line end", "a.b\n", "a\nc", 2, wrong_report(2, "c", 2, 1))
    holder.hold_judge("a wrong first byte", "a", "b", 2, wrong_report(0, "b", 1, 1))
    holder.hold_judge("a wrong second byte", "aa", "ab", 2, wrong_report(1, "b", 1, 2))
    holder.hold_judge("a wrong line end", "aaa", "aa\n", 2, wrong_report(2, "\\n", 1, 3))
    holder.hold_judge("one byte too many", "a", "aa", 2, wrong_report(1, "a", 1, 2))
    holder.hold_judge("a byte far behind", "a*", "a" * 1233 + "b", 2, wrong_report(1233, "b", 1, 1234))
    holder.hold_judge("many lines", ".*b", "\n" * 4000 + "a", 2, UNFINISHED_REPORT)
    holder.hold_judge("a byte in a line far behind", "[a\n]*", "a\n" * 1500 + "aab", 2, wrong_report(3002, "b", 1501, 3))
    holder.hold_judge("an empty report", "a", "", 2, NO_TREE + EMPTY)
    escapes = {0: "\\x00", 9: "\\t", 13: "\\x0d", 34: '\\"', 92: "\\\\", 32: " ", 126: "~", 127: "\\x7f", 255: "\\xff"}
    for byte, shown in escapes.items():
        holder.hold_judge(f"the wrong byte {byte}", "a", bytes([byte]), 2, wrong_report(0, shown, 1, 1))


def hold_patterns(holder):
    holder.hold_judge("not a pattern", "a**", "a", 3, wrong_pattern(2, "*", 1, 3))
    holder.hold_judge("not a pattern from its second byte on", "a)", "a", 3, wrong_pattern(1, ")", 1, 2))
    holder.hold_judge("not a pattern from its first byte on", "*", "a", 3, wrong_pattern(0, "*", 1, 1))
    holder.hold_judge("not a pattern in its second line", "a\nb)\n", "a", 3, wrong_pattern(3, ")", 2, 2))
    holder.hold_judge("half a pattern", "(a\n", "a", 3, UNFINISHED_PATTERN)
    for content in ("", "\n"):
        holder.hold_judge(f"no pattern, {content!r}", content, "", 3, NOT_WRITTEN + EMPTY)
    holder.hold_judge("two line ends, one of them the pattern", "\n\n", "\n", 0, ONE_TREE)
    holder.hold_judge("one line end after the pattern", "a\n", "a", 0, ONE_TREE)
    holder.hold_judge("two line ends after the pattern", "a\n\n", "a", 2, UNFINISHED_REPORT)
    holder.hold_judge("a line end in the pattern", "a\nb\n", "a\nb", 0, ONE_TREE)
    holder.hold_judge("a line end after the report counts", "a", "a\n", 2, wrong_report(1, "\\n", 1, 2))
    holder.hold_judge("bytes 0, 10 and 255 that fit", b"\0.[\xff]", b"\0\n\xff", 0, ONE_TREE)
    holder.hold_judge("bytes 0, 10 and 255 themselves", b"\0\n\xff", b"\0\n\xff", 0, ONE_TREE)
    holder.hold_judge("bytes 0, 10 and 255 that do not fit", b"\\\\\0.[\xff]", b"\0\n\xff", 2, wrong_report(0, "\\x00", 1, 1))


def hold_limits(holder):
    """Each limit from both sides, and which refusal comes first."""
    empty = "()" * 256
    for what, pattern, status, out in (
        ("512 bytes", empty, 0, ONE_TREE),
        ("512 bytes and a line end", empty + "\n", 0, ONE_TREE),
        ("512 bytes and two line ends", empty + "\n\n", 3, PATTERN_TOO_LONG),
        ("513 bytes", empty + "(", 3, PATTERN_TOO_LONG),
        ("513 bytes and a line end", empty + "(\n", 3, PATTERN_TOO_LONG),
        ("514 bytes", empty + "()", 3, PATTERN_TOO_LONG),
        ("line ends at the end of what is read", empty + "\n" * 600, 3, PATTERN_TOO_LONG),
        ("64 groups in each other", "(" * 64 + ")" * 64, 0, ONE_TREE),
        ("65 groups in each other", "(" * 65 + ")" * 65, 3, TOO_DEEP),
        ("65 places", "a" * 65, 3, MANY_PLACES),
        ("64 marks", "a?" * 64, 0, ONE_TREE),
        ("65 marks", "()?" * 65, 3, MANY_MARKS),
    ):
        holder.hold_judge(what, pattern, "", status, out)
    holder.hold_judge("64 places", "a" * 64, "a" * 64, 0, ONE_TREE)
    holder.hold_judge("a report of 4,096 bytes", ".*", "a" * 4096, 0, ONE_TREE)
    for count in (4097, 4098, 8190, 100000):
        holder.hold_judge(f"a report of {count:,} bytes", ".*", "a" * count, 4, REPORT_TOO_LONG)
    holder.hold_judge("a long pattern before a long report", "a" * 600, "a" * 5000, 3, PATTERN_TOO_LONG)
    holder.hold_judge("a long report before what is no pattern", ")", "a" * 5000, 4, REPORT_TOO_LONG)


def hold_pattern_as_word(holder):
    """-e takes the pattern as it is."""
    report = holder.file("report", "a\n")
    for what, words, status, out in (
        ("-e", ["-e", "a."], 0, ONE_TREE),
        ("-e in one word", ["-ea."], 0, ONE_TREE),
        ("-e keeps a line end", ["-e", "a\n"], 0, ONE_TREE),
        ("-e keeps two", ["-e", "a\n\n"], 2, UNFINISHED_REPORT),
        ("-e with what looks like an option", ["-e", "--tree"], 2, wrong_report(0, "a", 1, 1)),
        ("-e with nothing", ["-e", ""], 3, NOT_WRITTEN + EMPTY),
        ("-e of 512 bytes", ["-e", "a." + "()" * 255], 0, ONE_TREE),
        ("-e of 513 bytes", ["-e", "(" + "()" * 256], 3, PATTERN_TOO_LONG),
        ("-e of 100,000 bytes", ["-e", "a" * 100000], 3, PATTERN_TOO_LONG),
        ("-e of bytes that are no text", ["-e", b"a\xff"], 2, wrong_report(1, "\\n", 1, 2)),
    ):
        holder.hold_done(what, holder.run(["judge", *words, report]), status, out)


def hold_words(holder, examples):
    hold_examples(holder, examples)
    hold_places(holder)
    hold_patterns(holder)
    hold_limits(holder)
    hold_pattern_as_word(holder)
