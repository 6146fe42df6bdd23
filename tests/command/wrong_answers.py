"""What the program does where a call answers what it never answers, and where there is no memory.

    python3 tests/command/wrong_answers.py WRONG-ANSWERS NO-MEMORY    the program with wrong_answers.c and with no_memory.c for the calls
"""

import sys

from holding import ONE_TREE, PATTERN_TOO_LONG, Holder, said
from turns import NO_MARKS, listed, no_mark
from wrong_sheets import hold_wrong_sheets

OPENS, CLOSES, BYTE = 0, 128, 256
VARIABLES = {"first_tree": "DIMMHALT_ANSWER", "read": "DIMMHALT_READ_ANSWER", "turns": "DIMMHALT_TURNS_ANSWER"}


def answering(holder, runs, report, **answers):
    """What each run does where the calls answer so: number, figures, and what else."""
    environment = {VARIABLES[call]: " ".join(map(str, answer)) for call, answer in answers.items()}
    return [holder.run([verb, "-e", "abc", "-", *words], report, environment) for verb, *words in runs]


JUDGING = (["judge"], ["judge", "--tree"], ["judge", "--raw"])
COUNTING = (["turns"], ["turns", "--raw"], ["turns", "2"], ["turns", "--raw", "2"])


def hold_impossible(holder, number, value, flag, tree=(), report=b"ab"):
    for did in answering(holder, JUDGING + COUNTING, report, first_tree=(number, value, flag, *tree)):
        what = f"an answer that cannot be: {number} {value} {flag}, {list(tree)!r:.80}"
        holder.hold_done(what, did, 70, "", said("first_tree", number, value, flag))


def hold_numbers(holder):
    for number in (3, 9, 10, 11, 12, 99, 4294967295):
        hold_impossible(holder, number, 0, 0)
    for number in (1, 2, 5, 6, 7):
        hold_impossible(holder, number, 1, 0)
        hold_impossible(holder, number, 0, 1)
    for number, value in ((4, 4), (8, 3), (4, 2**64 - 1), (8, 2**64 - 1)):
        hold_impossible(holder, number, value, 0)
    for number, value in ((4, 3), (8, 2)):
        hold_impossible(holder, number, value, 1)


def hold_trees(holder):
    """Rows of tokens that are no tree of the report ab."""
    a, b = BYTE + 97, BYTE + 98
    for tree in ([], [a], [b, a], [a, b, b], [1, a, b], [a, b, CLOSES + 1], [1, a, b, CLOSES + 2], [1, 2, a, CLOSES + 1, b, CLOSES + 2],
                 [OPENS, a, b, CLOSES], [65, a, b, CLOSES + 65], [a, 127, b], [a, 255, b], [a, 512, b], [a, 65535, b]):
        hold_impossible(holder, 0, len(tree), 0, tree)
    for depth in (65, 200):
        hold_impossible(holder, 0, 2 * depth + 2, 0, [1] * depth + [a, b] + [CLOSES + 1] * depth)
    hold_impossible(holder, 0, 2, 2, [a, b])
    for value in (528385, 2**32, 2**64 - 1):
        hold_impossible(holder, 0, value, 0, [a, b])
    words, outline, raw = answering(holder, JUDGING, b"ab", first_tree=(0, 4, 0, 64, a, b, CLOSES + 64))
    holder.hold_done("a tree of the report", words, 0, ONE_TREE)
    holder.hold_done("its outline", outline, 0, ONE_TREE + '\nreport    "ab"\nmark 64     "ab"\n')
    holder.hold_done("its tokens", raw, 0, "ANSWER 0 4 0\nTREE o64 b97 b98 c64\n")


# A tree of the report ab, and a reading of a pattern with two marks.
TREE = (0, 4, 0, 1, BYTE + 97, BYTE + 98, CLOSES + 1)
READ = (0, 0, 2, 2)


def hold_readings(holder):
    """Answers of dimmhalt_read on a pattern that has a tree."""
    wrong = [(number, 0, 0, 0) for number in (1, 2, 3, 4, 5, 6, 7, 8, 9, 10, 11, 99, 4294967295)]
    wrong += [(4, 1, 0, 0), (0, 1, 2, 2), (0, 0, 65, 2), (0, 0, 2, 65), (0, 0, 2**64 - 1, 2), (0, 0, 2, 2**32), (0, 0, 2, 2**64 - 1)]
    for answer in wrong:
        for did in answering(holder, COUNTING, b"ab", first_tree=TREE, read=answer, turns=(0, 1, 0, 1)):
            holder.hold_done(f"a reading that cannot be: {answer}", did, 70, "", said("read", *answer))
    words, raw, *_ = answering(holder, COUNTING, b"ab", first_tree=TREE, read=(0, 0, 64, 64), turns=(0, 1, 0, 2))
    lines = [(1, 1), (2, 2), *((mark, 0) for mark in range(3, 65))]
    holder.hold_done("as many positions and marks as there can be", words, 0, ONE_TREE + listed(lines))
    holder.hold("as many raw lines", raw.out.count(b"\n"), 65)


def hold_counts(holder):
    """Answers of dimmhalt_turns on a tree. Where one of them cannot be, nothing is printed of the others."""
    wrong = [(number, 0) for number in (1, 8, 9, 10, 11, 99, 4294967295)] + [(10, 1), (0, 3), (0, 4), (0, 2**32), (0, 2**64 - 1)]
    for answer in wrong:
        for did in answering(holder, COUNTING, b"ab", first_tree=TREE, read=READ, turns=(0, 1, *answer)):
            holder.hold_done(f"a count that cannot be: {answer}", did, 70, "", said("turns", *answer))
        first, second = answering(holder, [["turns", "1"], ["turns", "2"]], b"ab", first_tree=TREE, read=READ, turns=(*answer, 0, 2))
        holder.hold_done(f"a count of mark 1 that cannot be: {answer}", first, 70, "", said("turns", *answer))
        holder.hold_done(f"it is not asked for: {answer}", second, 0, ONE_TREE + listed([(2, 2)]))
    words, raw, one, raw_one = answering(holder, COUNTING, b"ab", first_tree=TREE, read=READ, turns=(0, 0, 0, 2))
    holder.hold_done("counts that can be", words, 0, ONE_TREE + listed([(1, 0), (2, 2)]))
    holder.hold_done("they, raw", raw, 0, "ANSWER 0 4 0\nTURNS 1 0\nTURNS 2 2\n")
    holder.hold_done("one of them", one, 0, ONE_TREE + listed([(2, 2)]))
    holder.hold_done("one of them, raw", raw_one, 0, "ANSWER 0 4 0\nTURNS 2 2\n")


def hold_not_asked(holder):
    """Where the report is refused the marks are not asked for, and where the mark is refused, no count."""
    never = (99, 0, 0, 0)
    for did in answering(holder, COUNTING[::2], b"ab", first_tree=(1, 0, 0), read=never, turns=never):
        holder.hold_done("a refused pattern is not read again", did, 3, PATTERN_TOO_LONG)
    for marks, has in ((0, "no marks"), (1, "mark 1 alone")):
        words, raw = answering(holder, COUNTING[2:], b"ab", first_tree=TREE, read=(0, 0, 2, marks), turns=never)
        holder.hold_done(f"a refused mark is not counted: {has}", words, 5, no_mark(has))
        holder.hold_done(f"a refused mark is not counted: {has}, raw", raw, 5, "ANSWER 10 0 0\n")
    words, raw = answering(holder, COUNTING[:2], b"ab", first_tree=TREE, read=(0, 0, 2, 0), turns=never)
    holder.hold_done("no marks are not counted", words, 0, ONE_TREE + NO_MARKS)
    holder.hold_done("no marks are not counted, raw", raw, 0, "ANSWER 0 4 0\n")


def main(wrong_answers, no_memory):
    holder = Holder([wrong_answers])
    hold_numbers(holder)
    hold_trees(holder)
    hold_readings(holder)
    hold_counts(holder)
    hold_not_asked(holder)
    hold_wrong_sheets(holder)
    without = Holder([no_memory])
    sheet = ["sheet", "-e", "a", "--last", "/dev/null", "/dev/null"]
    for words in (["judge", "-e", "a", "/dev/null"], ["turns", "-e", "a", "/dev/null", "1"], sheet, ["--help"], []):
        holder.hold_done(f"no memory: {words}", without.run(words), 70, "", "dimmhalt: internal: Cannot allocate memory\n")
    return holder.tally("wrong answers, no memory")


if __name__ == "__main__":
    sys.exit(main(*sys.argv[1:]))
