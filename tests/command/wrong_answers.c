/*
 * Calls that answer what the environment says, and not the truth: number and figures. DIMMHALT_ANSWER is for dimmhalt_first_tree, with the
 * tokens of a tree behind the figures; DIMMHALT_READ_ANSWER for dimmhalt_read; DIMMHALT_TURNS_ANSWER for dimmhalt_turns, one answer behind
 * another for marks 1, 2 and so on; DIMMHALT_SHEET_ANSWER for dimmhalt_sheet, with the three numbers of each record behind it, and DIMMHALT_SHEET
 * is the sheet. What is not said is 0. What the command does with answers that cannot come is tried with it.
 */
#include <stdlib.h>
#include <string.h>

#include "dimmhalt.h"

static char *said_by(const char *variable) {
    char *words = getenv(variable);
    static char none[] = "";
    return words == NULL ? none : words;
}

/* Takes number and figures from words, and moves on behind them. */
static uint32_t take_answer(char **words, uint64_t *out, size_t out_length) {
    uint32_t number = (uint32_t)strtoul(*words, words, 10);
    for (size_t at = 0; at < out_length; at++) out[at] = strtoull(*words, words, 10);
    return number;
}

uint32_t dimmhalt_first_tree(const uint8_t *pattern, size_t pattern_length, const uint8_t *text, size_t text_length, uint64_t *cells,
                             size_t cells_length, uint16_t *tree, size_t tree_length, uint64_t *out, size_t out_length) {
    char *rest = said_by("DIMMHALT_ANSWER");
    uint32_t number = take_answer(&rest, out, out_length);
    (void)pattern, (void)pattern_length, (void)text, (void)text_length, (void)cells, (void)cells_length;
    for (size_t at = 0; at < tree_length && *rest != '\0'; at++) tree[at] = (uint16_t)strtoul(rest, &rest, 10);
    return number;
}

uint32_t dimmhalt_read(const uint8_t *pattern, size_t pattern_length, uint64_t *out, size_t out_length) {
    char *rest = said_by("DIMMHALT_READ_ANSWER");
    (void)pattern, (void)pattern_length;
    return take_answer(&rest, out, out_length);
}

uint32_t dimmhalt_turns(const uint16_t *row, size_t row_length, uint64_t mark, uint64_t *out, size_t out_length) {
    char *rest = said_by("DIMMHALT_TURNS_ANSWER");
    uint32_t number = 0;
    (void)row, (void)row_length;
    for (uint64_t at = 0; at < mark; at++) number = take_answer(&rest, out, out_length);
    return number;
}

uint32_t dimmhalt_sheet(const uint8_t *pattern, size_t pattern_length, const uint8_t *reports, size_t reports_length, const uint64_t *lengths,
                        size_t lengths_length, const uint64_t *last, size_t last_length, uint64_t *cells, size_t cells_length, uint16_t *tree,
                        size_t tree_length, struct dimmhalt_record *table, size_t table_length, uint8_t *sheet, size_t sheet_length,
                        uint64_t *out, size_t out_length) {
    char *rest = said_by("DIMMHALT_SHEET_ANSWER"), *text = said_by("DIMMHALT_SHEET");
    uint32_t number = take_answer(&rest, out, out_length);
    (void)pattern, (void)pattern_length, (void)reports, (void)reports_length, (void)lengths, (void)lengths_length, (void)last, (void)last_length;
    (void)cells, (void)cells_length, (void)tree, (void)tree_length;
    for (size_t at = 0; at < table_length; at++) {
        table[at].turns = strtoull(rest, &rest, 10);
        table[at].bytes = strtoull(rest, &rest, 10);
        table[at].longest = strtoull(rest, &rest, 10);
    }
    memcpy(sheet, text, strlen(text) < sheet_length ? strlen(text) : sheet_length);
    return number;
}
