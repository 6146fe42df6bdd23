"""Trees: the outline, byte for byte, and the raw lines."""

import re

from holding import ONE_TREE, QUICK, REPORT_TOO_LONG, SEVERAL

WIDTH = 100

# The outlines of the examples: the line of the report; then lines of one mark that follow each other, as mark, indent and what each reads.
EXAMPLE = r'report    "DUMP 2025-03-14 vault-3\ncustomers     310 rows  " ... "    0 MB skipped\nEND 3 tables\n"'
CUSTOMERS = "customers     310 rows    2 MB ok\n"
ORDERS = "orders       1204 rows   18 MB ok\n"
AUDIT = "audit_log       0 rows    0 MB skipped\n"
IN_CUSTOMERS = ((4, 4, "customers"), (5, 4, "     "), (6, 4, "310"), (7, 4, "    "), (8, 4, "2"), (9, 4, ["ok"]))
IN_ORDERS = ((4, 4, "orders"), (5, 4, "       "), (6, 4, "1204"), (7, 4, "   "), (8, 4, "18"), (9, 4, ["ok"]))
IN_AUDIT = ((4, 4, "audit_log"), (5, 4, "       "), (6, 4, "0"), (7, 4, "    "), (8, 4, "0"), (10, 4, ["skipped"]))
TABLES = ((3, 2, [CUSTOMERS]), *IN_CUSTOMERS, (3, 2, [ORDERS]), *IN_ORDERS, (3, 2, [AUDIT]), *IN_AUDIT)
NIGHTLY = ((1, 2, "2025-03-14"), (2, 2, "vault-3"), *TABLES, (11, 2, "3"))
AMBIGUOUS = ((1, 2, "2025-03-14 vault-3\n" + CUSTOMERS + ORDERS + AUDIT), (6, 2, "3 tables\n"))

ESCAPES = r'\n\t\"\\\x00\x0d\x7f\xff~'

# what, pattern, report, whether there is another tree, the outline
SMALL = (
    ("nothing", "a*", "", 0, 'report    "" (nothing)\n'),
    ("a pattern without marks", "ab", "ab", 0, 'report    "ab"\n'),
    ("an empty tree", "()", "", 0, 'report    "" (nothing)\n'),
    ("a branch", "a|b", "b", 0, 'report    "b"\nmark  2     "b"\n'),
    ("an empty branch", "(a|())b", "b", 0, 'report    "b"\nmark  2     "" (nothing)\n'),
    ("a turn over nothing", "(a*)+", "", 0, 'report    "" (nothing)\nmark  1     "" (nothing)\n'),
    ("one turn of one byte", "a*", "a", 0, 'report    "a"\nmark  1     "a"\n'),
    ("two turns of one byte", "a*", "aa", 0, 'report    "aa"\nmark  1     "a"\nmark  1     "a"\n'),
    ("turns of two bytes", "(ab)*", "abab", 0, 'report    "abab"\nmark  1     "ab"\nmark  1     "ab"\n'),
    ("turns with a branch", "(a|b)*", "ab", 0, 'report    "ab"\nmark  1     "a"\nmark  2       "a"\nmark  1     "b"\nmark  3       "b"\n'),
    ("turns of two parts in a row", "a*b*", "aab", 0, 'report    "aab"\nmark  1     "a"\nmark  1     "a"\nmark  2     "b"\n'),
    ("escapes", "(.........)*", b'\n\t"\\\0\r\x7f\xff~', 0, f'report    "{ESCAPES}"\nmark  1     "{ESCAPES}"\n'),
    ("another tree", "a*a*", "aa", 1, 'report    "aa"\nmark  1     "a"\nmark  1     "a"\n'),
)


def written_out(example):
    """The outline of an example, with one line for each turn and each branch."""
    lines = [f'mark {mark:2}{" " * (3 + indent)}"{part}"' for mark, indent, parts in example for part in parts]
    return "".join(line.replace("\n", "\\n") + "\n" for line in [EXAMPLE, *lines])


def escaped(byte):
    return {10: "\\n", 9: "\\t", 34: '\\"', 92: "\\\\"}.get(byte) or (chr(byte) if 32 <= byte < 127 else f"\\x{byte:02x}")


def fitting(pieces, width):
    """How many of the first pieces go into a width."""
    count = 0
    while count < len(pieces) and sum(map(len, pieces[: count + 1])) <= width:
        count += 1
    return count


def quoted(part, width):
    pieces = [escaped(byte) for byte in part[:width]]
    if len(part) <= width and sum(map(len, pieces)) <= width - 2:
        return f'"{"".join(pieces)}"'
    last_width = (width - 9) * 2 // 5
    last = [escaped(byte) for byte in part[-width:]]
    end = last[len(last) - fitting(last[::-1], last_width) :]
    return f'"{"".join(pieces[: fitting(pieces, width - 9 - last_width)])}" ... "{"".join(end)}"'


def parts_of(tokens):
    """The parts of a tree as (depth, mark, start, end), in the order in which they are opened."""
    parts, opened, read = [], [], 0
    for token in tokens:
        if token[0] == "o":
            opened.append(len(parts))
            parts.append([len(opened), int(token[1:]), read, None])
        elif token[0] == "c":
            parts[opened.pop()][3] = read
        else:
            read += 1
    return parts


def outlined(tokens, report):
    """The outline of a tree, made in another way than the program makes it."""
    parts = parts_of(tokens)
    step = 1 if max((part[0] for part in parts), default=0) > 20 else 2
    lines = [("report", 0, report)]
    lines += [(f"mark {mark:2}", depth * step, report[start:end]) for depth, mark, start, end in parts]
    return "".join(
        f"{label:10}{' ' * indent}{quoted(part, WIDTH - 10 - indent)}{'' if part else ' (nothing)'}\n" for label, indent, part in lines
    )


def verdict(other, below=True):
    return f"{SEVERAL}.{' The tree below is the first.' if below else ''}\n" if other else ONE_TREE


def hold_tree(holder, what, pattern, report, other, outline=None):
    """Holds the raw lines to their form and the outline to them, and to text that is given."""
    report = report if isinstance(report, bytes) else report.encode()
    raw = holder.run(["judge", "--raw", holder.file("pattern", pattern), holder.file("report", report)])
    form = re.fullmatch(rb"ANSWER 0 (\d+) ([01])\nTREE((?: [ocb]\d+)*)\n", raw.out)
    tokens = form.group(3).decode().split() if form else []
    read = bytes(int(token[1:]) for token in tokens if token[0] == "b")
    seen = [raw.status, raw.err, form and (int(form.group(1)), int(form.group(2))), read]
    holder.hold(f"raw: {what}", seen, [other, b"", (len(tokens), other), report])
    wanted = outlined(tokens, report)
    if outline is not None:
        holder.hold(f"the tests' own outline: {what}", wanted, outline)
    holder.hold_judge(f"outline: {what}", pattern, report, other, f"{verdict(other)}\n{wanted}", "--tree")
    return tokens


def hold_raw(holder):
    for what, pattern, report, status, out in (
        ("a tree", "(a|b)*c", "abc", 0, "ANSWER 0 11 0\nTREE o1 o2 b97 c2 c1 o1 o3 b98 c3 c1 b99\n"),
        ("another tree", "(a|a)", "a", 1, "ANSWER 0 3 1\nTREE o1 b97 c1\n"),
        ("an empty tree", "()", "", 0, "ANSWER 0 0 0\nTREE\n"),
        ("bytes 0, 10 and 255", "...", b"\0\n\xff", 0, "ANSWER 0 3 0\nTREE b0 b10 b255\n"),
        ("no tree", "ab", "ac", 2, "ANSWER 8 1 0\n"),
        ("not a pattern", "a**", "a", 3, "ANSWER 4 2 0\n"),
        ("a long pattern", "a" * 513, "", 3, "ANSWER 1 0 0\n"),
        ("a long report", "a", "a" * 4097, 4, "ANSWER 2 0 0\n"),
        ("deep groups", "(" * 65 + ")" * 65, "", 3, "ANSWER 5 0 0\n"),
        ("many places", "a" * 65, "", 3, "ANSWER 6 0 0\n"),
        ("many marks", "()?" * 65, "", 3, "ANSWER 7 0 0\n"),
    ):
        holder.hold_judge(f"raw: {what}", pattern, report, status, out, "--raw")


def hold_shortening(holder):
    """Both sides of the width, with bytes that take one, two and four columns."""
    for count in (87, 88, 89, 200, 4096):
        hold_tree(holder, f"{count} letters", "(.*)", bytes(97 + at % 26 for at in range(count)), 0)
        hold_tree(holder, f"{count} bytes in one turn, of all values", "(.+)?", bytes(at * 7 % 256 for at in range(count)), 0)
    for count in (21, 22, 23, 43, 44, 45):
        hold_tree(holder, f"{count} bytes that do not print", "." * count, b"\xff" * count, 0)
        hold_tree(holder, f"{count} line ends", "." * count, b"\n" * count, 0)


def deep(marks, inside="a", sign="?"):
    return "(" * (marks - 1) + inside + (sign + ")") * (marks - 1) + sign


def hold_deep(holder, depths=(19, 20, 21, 22, 64)):
    for marks in depths:
        hold_tree(holder, f"{marks} marks in each other", deep(marks), "a", 0)
        hold_tree(holder, f"{marks} marks around a long part", deep(marks, "(" + "b" * 60 + ")"), "b" * 60, 0)
    hold_tree(holder, "64 marks around nothing", deep(64, "()", "+"), "", 0)


def hold_largest(holder):
    """528,384 tokens: 64 marks around each of 4,096 bytes."""
    pattern = "(" * 63 + "a" + "?)" * 63 + "*"
    tokens = hold_tree(holder, "the largest tree", pattern, "a" * 4096, 0)
    holder.hold("the largest tree has so many tokens", len(tokens), 528384)
    did = holder.run(["judge", "--tree", holder.path("pattern"), holder.path("report")])
    longest = max(map(len, did.out.splitlines()), default=0)
    holder.hold("the largest tree stays within the width", 0 < longest <= WIDTH, True)
    holder.hold("the largest tree is printed without delay", did.seconds < QUICK, True)


def hold_small(holder, examples):
    report = (examples / "nightly.report").read_bytes()
    hold_tree(holder, "the example that fits in one way", (examples / "nightly.pattern").read_bytes(), report, 0, written_out(NIGHTLY))
    hold_tree(holder, "the example that fits in several", (examples / "ambiguous.pattern").read_bytes(), report, 1, written_out(AMBIGUOUS))
    for case in SMALL:
        hold_tree(holder, *case)


def hold_outline(holder, examples):
    hold_small(holder, examples)
    hold_raw(holder)
    hold_shortening(holder)
    hold_deep(holder)
    hold_largest(holder)
    holder.hold_judge("no outline without a tree", "a", "a" * 4097, 4, REPORT_TOO_LONG, "--tree")
