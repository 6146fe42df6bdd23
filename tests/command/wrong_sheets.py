"""What the verb sheet does where a call answers what it never answers. wrong_answers.py runs it."""

from holding import NOT_WRITTEN, said
from last import NOT_ONE_FOR_EACH, TOO_LARGE
from sheet import changes_of, in_words, lines_of, raw_sheet

# A night of three reports under a pattern with two marks: two bytes, none, and too many.
READ = (0, 0, 2, 2)
LAST = (5, 0)
ANSWERS = (0, 9, 2)
RECORDS = ((2, 2, 1), (1, 2, 2))
SHEET = raw_sheet(ANSWERS, RECORDS, changes_of(RECORDS, LAST))


def night_words(holder, last=lines_of(LAST), more=()):
    """The words of a night: pattern, last night's list, reports."""
    names = [holder.file("two", "ab"), holder.file("none", ""), holder.file("long", "a" * 4097)]
    return ["sheet", "-e", "abc", "--last", holder.file("last", last), *names, *more], names


def answering(holder, words, sheet=SHEET, number=0, value=None, table=RECORDS, read=READ):
    """What the program does where the calls answer so."""
    figures = [number, len(sheet) if value is None else value, *(figure for record in table for figure in record)]
    environment = {"DIMMHALT_READ_ANSWER": read, "DIMMHALT_SHEET_ANSWER": figures}
    environment = {name: " ".join(map(str, answer)) for name, answer in environment.items()}
    return holder.run(words, environment={**environment, "DIMMHALT_SHEET": sheet})


def hold_impossible(holder, what, sheet=SHEET, number=0, value=None, table=RECORDS, last=lines_of(LAST), more=()):
    words, _ = night_words(holder, last, more)
    line = said("sheet", number, len(sheet) if value is None else value)
    for mode in ([], ["--raw"]):
        holder.hold_done(f"a sheet that cannot be: {what}", answering(holder, [*words, *mode], sheet, number, value, table), 70, "", line)


def hold_possible(holder):
    """A night with each number that a report can have, 9 too, which does not come where so much is lent."""
    words, names = night_words(holder)
    out = in_words(names, ANSWERS, RECORDS, changes_of(RECORDS, LAST))
    holder.hold_done("a sheet that can be", answering(holder, words), 4, out)
    holder.hold_done("a sheet that can be, raw", answering(holder, [*words, "--raw"]), 4, SHEET)


def hold_numbers(holder):
    """Numbers that the pattern, the reports and last night's turns give no ground for."""
    for number in (1, 2, 3, 4, 5, 6, 7, 8, 9, 10, 11, 12, 13, 14, 15, 4294967295):
        hold_impossible(holder, f"number {number}", "", number, 0)
    for number, last, more in ((12, lines_of(LAST), ["/dev/null"] * 998), (13, "5\n", ()), (14, "5\n4096001\n", ())):
        hold_impossible(holder, f"number {number} with a value", "", number, 1, last=last, more=more)
        hold_impossible(holder, f"0 in the place of {number}", last=last, more=more)
    words, _ = night_words(holder, "5\n")
    line = f"dimmhalt: {holder.path('last')}: {NOT_ONE_FOR_EACH}: the list has 1, the pattern 2; it is no sheet from line 2 on\n"
    holder.hold_done("number 13 that can be", answering(holder, words, "", 13), 64, "", line)
    words, _ = night_words(holder, "5\n4096001\n")
    line = f"dimmhalt: {holder.path('last')}: {TOO_LARGE}, in line 2\n"
    holder.hold_done("number 14 that can be", answering(holder, words, "", 14), 64, "", line)


def hold_forms(holder):
    """Bytes that are no sheet of the night."""
    for value in (0, len(SHEET) - 1, len(SHEET) + 1, 8192, 8193, 2**64 - 1):
        hold_impossible(holder, f"value {value}", value=value)
    for what, sheet in (
        ("no number", SHEET.replace("9", "x")),
        ("other reports", raw_sheet((0, 8), RECORDS, (-3, 1))),
        ("other marks", raw_sheet(ANSWERS, RECORDS[:1], (-3,))),
        ("a line too many", SHEET + "0\n"),
        ("a long report with 0", raw_sheet((0, 9, 0), RECORDS, (-3, 1))),
        ("a short report with 2", raw_sheet((0, 2, 2), RECORDS, (-3, 1))),
        ("a report with 3", raw_sheet((0, 3, 2), RECORDS, (-3, 1))),
        ("a report with a number that wraps to 0", raw_sheet((2**64, 9, 2), RECORDS, (-3, 1))),
        ("other turns", raw_sheet(ANSWERS, ((1, 2, 1), RECORDS[1]), (-3, 1))),
        ("another change", raw_sheet(ANSWERS, RECORDS, (-2, 1))),
        ("a change the other way", raw_sheet(ANSWERS, RECORDS, (3, 1))),
        ("no change", raw_sheet(ANSWERS, RECORDS, (0, 1))),
    ):
        hold_impossible(holder, what, sheet)


def hold_records(holder):
    """Records that are not those of the sheet, or cannot be."""
    for record in ((3, 2, 1), (2, 3, 1), (2, 2, 2)):
        hold_impossible(holder, f"the table says {record}", table=(record, RECORDS[1]))
    for record in ((3, 2, 1), (2, 2, 3), (2, 5000, 1), (2**63, 2**63, 1), (2**64 - 1, 2**64 - 1, 1)):
        records = (record, RECORDS[1])
        hold_impossible(holder, f"sheet and table say {record}", raw_sheet(ANSWERS, records, changes_of(records, LAST)), table=records)


def hold_sheet_readings(holder):
    """Answers of dimmhalt_read: what cannot be, and a refusal, with which the sheet is not asked for."""
    words, _ = night_words(holder)
    wrong = [(number, 0, 0, 0) for number in (2, 3, 8, 9, 10, 99)]
    wrong += [(4, 4, 0, 0), (4, 1, 1, 0), (1, 1, 0, 0), (5, 0, 0, 1), (0, 0, 65, 2), (0, 0, 2, 65)]
    for answer in wrong:
        did = answering(holder, words, read=answer, number=99)
        holder.hold_done(f"a reading that cannot be: sheet, {answer}", did, 70, "", said("read", *answer))
    did = answering(holder, words, read=(4, 3, 0, 0), number=99)
    out = NOT_WRITTEN + "All of it begins some pattern, but something is missing at its end.\n"
    holder.hold_done("a refused pattern is not asked for", did, 3, out)


def hold_wrong_sheets(holder):
    hold_possible(holder)
    hold_numbers(holder)
    hold_forms(holder)
    hold_records(holder)
    hold_sheet_readings(holder)
