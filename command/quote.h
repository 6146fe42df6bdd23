/* How bytes, numbers and marks are shown. */
#ifndef QUOTE_H
#define QUOTE_H

#include <stddef.h>
#include <stdint.h>
#include <stdio.h>

#include "shared.h"

/* The least width in which everything can be quoted, shortened if need be. */
#define QUOTE_LEAST_WIDTH 20

/* Prints a text with the bytes escaped that do not print. */
void print_escaped(FILE *stream, const char *text);

/*
 * Puts bytes between quotes into `shown`, which has room for `width` characters, and says how many it took; no 0 is put behind them. What
 * does not fit loses its middle: "its first bytes" ... "and its last".
 */
size_t quote(struct bytes bytes, size_t width, char *shown);

/* Puts the digits of a number into `shown`, which has room for NUMBER_MOST characters, and says how many. */
size_t put_number(uint64_t number, char *shown);
#define NUMBER_MOST 20

/* A number with a comma before each three digits, at the end of `room`. */
#define GROUPED_MOST (NUMBER_MOST + NUMBER_MOST / 3 + 1) /* the digits, a comma for each three of them, and a 0 */
const char *grouped(uint64_t number, char room[GROUPED_MOST]);

/* The label of a mark: its number has two characters at least, so that labels stand under each other. */
#define MARK_LABEL "mark "
#define MARK_LABEL_MOST (sizeof MARK_LABEL + 1 + NUMBER_MOST)
void put_mark_label(uint64_t mark, char label[MARK_LABEL_MOST]);

#endif
