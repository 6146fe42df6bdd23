/*
 * Dimmhalt: which tree has a report under a pattern, and is it the only one? And what do the reports of a night come to?
 *
 * Link with the archive libdimmhalt.a, which is for x86-64 Linux; `rt lib`, in crates/dimmhalt, proves it, builds it and puts it into
 * crates/dimmhalt/out/. The calls need no other library, allocate nothing, write nothing but their stack and what is lent to them, keep nothing
 * from one call to the next, and end on every input. Several threads may call at the same time, each with memory of its own to lend.
 *
 * THE CALLER OWES, for every call, this and nothing else:
 *   - every pointer is not null and is aligned for its type, also where its length is 0: then nothing is read or written through it;
 *   - a length counts elements, not bytes, and so many can be read; what is lent without `const` (cells, tree, table, sheet, out) can be
 *     written as well;
 *   - no length in bytes is above 9223372036854775807, the largest that one object can have;
 *   - during the call no one else writes what the call reads, or touches what is lent to it to write;
 *   - what is lent to write overlaps nothing else that is handed in; what is only read may overlap each other;
 *   - the thread has DIMMHALT_STACK bytes of stack left.
 * All memory stays the caller's: the call keeps no pointer, and nothing is to be freed. Any bytes may be handed in as pattern, text and
 * reports; no byte ends a row, not 0 and not 10. What is lent to write may hold anything before the call.
 *
 * THE ANSWER is a number, the result. Every other figure goes to the front of `out`, in the order that the call names, as far as `out` is long;
 * the rest of `out` is unchanged, and a figure that is not named for an answer is 0. Refusals are checked in the order of their numbers, and
 * the first that applies is given.
 */
#ifndef DIMMHALT_H
#define DIMMHALT_H

#include <stddef.h>
#include <stdint.h>

#ifdef __cplusplus
extern "C" {
#endif

/* Lengths are 64 bits wide: elsewhere the archive cannot be called, and this does not compile. */
typedef char dimmhalt_lengths_have_64_bits[sizeof(size_t) == 8 ? 1 : -1];

/*
 * The first number changes with the form of a call, where a program that calls it has to change; the second where a call is added or answers
 * otherwise.
 */
#define DIMMHALT_VERSION "1.2"

/* The numbers. */
#define DIMMHALT_ANSWERED 0           /* the call was answered; of dimmhalt_first_tree: the report fits, and its first tree is written; of
                                         dimmhalt_sheet: the sheet is written */
#define DIMMHALT_ONE_TREE 0           /* (dimmhalt_verdict) the report fits the pattern, in exactly one way */
#define DIMMHALT_PATTERN_TOO_LONG 1   /* the pattern has more than 512 bytes */
#define DIMMHALT_TEXT_TOO_LONG 2      /* the report has more than 4,096 bytes */
#define DIMMHALT_TOO_FEW_CELLS 3      /* fewer work cells are lent than the report has bytes, and one; of dimmhalt_sheet: fewer than 4,097 work
                                         cells, or fewer than 8,192 bytes for the sheet */
#define DIMMHALT_NOT_A_PATTERN 4      /* the pattern is not written by the rules; the empty pattern is not */
#define DIMMHALT_NESTED_TOO_DEEP 5    /* groups stand more than 64 deep in each other */
#define DIMMHALT_TOO_MANY_POSITIONS 6 /* more than 64 places of the pattern read a byte */
#define DIMMHALT_TOO_MANY_MARKS 7     /* more than 64 branches and repeated parts */
#define DIMMHALT_NO_TREE 8            /* the report does not fit the pattern */
#define DIMMHALT_ROOM_TOO_SMALL 9     /* the report fits, but its tree is longer than the room that is lent */
#define DIMMHALT_NO_SUCH_MARK 10      /* (dimmhalt_turns) the mark is none of 1 to 64 */
#define DIMMHALT_SEVERAL_TREES 11     /* (dimmhalt_verdict) the report fits, and could mean more than one thing */
#define DIMMHALT_WRONG_LENGTHS 12     /* (dimmhalt_sheet) more than 1,000 reports, or lengths that do not add up to their bytes */
#define DIMMHALT_WRONG_MARKS 13       /* (dimmhalt_sheet) the table or last night's list has not exactly one entry for each mark */
#define DIMMHALT_LAST_TOO_LARGE 14    /* (dimmhalt_sheet) a number of last night is over 4,096,000 */

/* The limits. */
#define DIMMHALT_PATTERN_LIMIT 512  /* bytes of a pattern */
#define DIMMHALT_TEXT_LIMIT 4096    /* bytes of a report */
#define DIMMHALT_NESTING_LIMIT 64   /* groups in each other */
#define DIMMHALT_POSITION_LIMIT 64  /* places of a pattern that read a byte */
#define DIMMHALT_MARK_LIMIT 64      /* branches and repeated parts of a pattern */
#define DIMMHALT_REPORT_LIMIT 1000  /* reports of a night */
#define DIMMHALT_LAST_LIMIT 4096000 /* turns of a mark last night: no night can have more */

/*
 * How much to lend. DIMMHALT_CELLS(n) cells are what a report of n bytes asks for. DIMMHALT_ROOM(marks, n) tokens hold every tree of a report of
 * n bytes under a pattern with so many marks (dimmhalt_read says how many it has), and for some they are just enough: that is proved. The
 * largest that can be asked for are DIMMHALT_MOST_CELLS and DIMMHALT_MOST_ROOM. A sheet always asks for DIMMHALT_MOST_CELLS cells and
 * DIMMHALT_SHEET_BYTES bytes. The stack is measured, not proved: on the deepest patterns that were found, a thread that does nothing but call
 * needed 140 KiB for dimmhalt_verdict and less for the others.
 */
#define DIMMHALT_CELLS(n) ((size_t)(n) + 1)
#define DIMMHALT_ROOM(marks, n) ((size_t)(n) + 2 * (size_t)(marks) * ((size_t)(n) > 0 ? (size_t)(n) : 1))
#define DIMMHALT_MOST_CELLS 4097
#define DIMMHALT_MOST_ROOM 528384
#define DIMMHALT_SHEET_BYTES 8192
#define DIMMHALT_STACK 163840

/*
 * A tree is a row of tokens: the report's bytes in their order, each as 256 + byte, and around each branch that was taken and each turn of a
 * repeated part the mark of it, h from 1 to 64: h opens and 128 + h closes.
 */
#define DIMMHALT_OPENS(h) (h)
#define DIMMHALT_CLOSES(h) (128 + (h))
#define DIMMHALT_BYTE(b) (256 + (b))

/*
 * The verdict on a report: 0 for exactly one tree, 11 for more than one, else 1, 2, 4, 5, 6, 7 or 8. It lends nothing and has no figures.
 */
uint32_t dimmhalt_verdict(const uint8_t *pattern, size_t pattern_length, const uint8_t *text, size_t text_length);

/*
 * The first tree of a report in the order in which the pattern is written. Answers 0 to 9.
 *
 *   figure 0, the value:   0: the length of the tree. 9: the length of the first tree. 4: how many bytes of the pattern begin some pattern;
 *                          the next, or the end, is where it goes wrong. 8: how many bytes of the report begin some report that fits.
 *   figure 1, the flag:    0: 1 if there is another tree, and 0 if there is not.
 *
 *   cells                  work. With 8, 9 and 0 the first DIMMHALT_CELLS(text_length) are zero afterwards and the rest is unchanged; with any
 *                          other answer all are unchanged.
 *   tree                   with 0 the tree stands at its front, and the rest is unchanged; with any other answer all of it is.
 */
uint32_t dimmhalt_first_tree(const uint8_t *pattern, size_t pattern_length, const uint8_t *text, size_t text_length, uint64_t *cells,
                             size_t cells_length, uint16_t *tree, size_t tree_length, uint64_t *out, size_t out_length);
#define DIMMHALT_FIRST_TREE_FIGURES 2

/*
 * Is this a pattern? Answers 0, 1, 4, 5, 6 or 7.
 *
 *   figure 0, the value:   4: as of dimmhalt_first_tree.
 *   figure 1, positions:   0: how many places of the pattern read a byte.
 *   figure 2, marks:       0: how many branches and repeated parts it has.
 */
uint32_t dimmhalt_read(const uint8_t *pattern, size_t pattern_length, uint64_t *out, size_t out_length);
#define DIMMHALT_READ_FIGURES 3

/*
 * How many turns of a mark read text. Of a tree: the turns of a repeated part, or the choices of a branch, that read at least one byte; a turn
 * over nothing, as the only one of `+` may be, is not counted. Of any row of tokens, which need not be a tree: the openings of the mark,
 * DIMMHALT_OPENS(mark), with a byte token, 256 to 511, between the opening and the next closing of the same mark, DIMMHALT_CLOSES(mark). An
 * opening that never closes is not counted. Answers 0 or 10, in a time that grows in proportion to the length of the row.
 *
 *   figure 0, the count:   0: how many turns, or openings, these are.
 */
uint32_t dimmhalt_turns(const uint16_t *row, size_t row_length, uint64_t mark, uint64_t *out, size_t out_length);
#define DIMMHALT_TURNS_FIGURES 1

/*
 * The sheet of a night: up to DIMMHALT_REPORT_LIMIT reports under one pattern, which stand in one row of bytes, one after another by their
 * lengths. The first tree of each is looked for in turn, as dimmhalt_first_tree does; each gets its number, 0, 2, 8 or 9, and those with 0 count.
 * Answers 0, 1, 3 to 7, or 12 to 14.
 *
 *   figure 0, the value:   0: the length of the sheet. 4: as of dimmhalt_first_tree.
 *
 *   last                   the turns of each mark last night, none over DIMMHALT_LAST_LIMIT
 *   cells                  work. With 0 the first DIMMHALT_MOST_CELLS are zero afterwards and the rest is unchanged.
 *   tree                   room for one tree at a time. With 0 it is as calls of dimmhalt_first_tree, one for each report in turn, leave it.
 *   table                  with 0 the record of mark h stands at place h - 1, whatever stood there: over all reports that count, how many turns
 *                          of the mark read text, as dimmhalt_turns counts them, how many bytes these read, and how many the longest of them.
 *                          Its length counts records.
 *   sheet                  with 0 the sheet stands at its front, and the rest is unchanged. It is made of decimal numbers, with byte 10 behind
 *                          each: how many reports, and the number of each; how many marks, and of each its turns, bytes and longest turn; how
 *                          many marks, and of each the turns tonight less those of last night, with + or - in front, and 0 without a sign.
 * With any other answer all that is lent but `out` is unchanged.
 */
struct dimmhalt_record {
    uint64_t turns;
    uint64_t bytes;
    uint64_t longest;
};
uint32_t dimmhalt_sheet(const uint8_t *pattern, size_t pattern_length, const uint8_t *reports, size_t reports_length, const uint64_t *lengths,
                        size_t lengths_length, const uint64_t *last, size_t last_length, uint64_t *cells, size_t cells_length, uint16_t *tree,
                        size_t tree_length, struct dimmhalt_record *table, size_t table_length, uint8_t *sheet, size_t sheet_length,
                        uint64_t *out, size_t out_length);
#define DIMMHALT_SHEET_FIGURES 1

#ifdef __cplusplus
}
#endif

#endif
