/* No memory is to be had, and the calls are never reached. */
#include <errno.h>
#include <stdlib.h>

#include "dimmhalt.h"

void *malloc(size_t size) {
    (void)size;
    errno = ENOMEM;
    return NULL;
}

uint32_t dimmhalt_first_tree(const uint8_t *pattern, size_t pattern_length, const uint8_t *text, size_t text_length, uint64_t *cells,
                             size_t cells_length, uint16_t *tree, size_t tree_length, uint64_t *out, size_t out_length) {
    (void)pattern, (void)pattern_length, (void)text, (void)text_length, (void)cells, (void)cells_length;
    (void)tree, (void)tree_length, (void)out, (void)out_length;
    abort();
}

uint32_t dimmhalt_read(const uint8_t *pattern, size_t pattern_length, uint64_t *out, size_t out_length) {
    (void)pattern, (void)pattern_length, (void)out, (void)out_length;
    abort();
}

uint32_t dimmhalt_turns(const uint16_t *row, size_t row_length, uint64_t mark, uint64_t *out, size_t out_length) {
    (void)row, (void)row_length, (void)mark, (void)out, (void)out_length;
    abort();
}

uint32_t dimmhalt_sheet(const uint8_t *pattern, size_t pattern_length, const uint8_t *reports, size_t reports_length, const uint64_t *lengths,
                        size_t lengths_length, const uint64_t *last, size_t last_length, uint64_t *cells, size_t cells_length, uint16_t *tree,
                        size_t tree_length, struct dimmhalt_record *table, size_t table_length, uint8_t *sheet, size_t sheet_length,
                        uint64_t *out, size_t out_length) {
    (void)pattern, (void)pattern_length, (void)reports, (void)reports_length, (void)lengths, (void)lengths_length, (void)last, (void)last_length;
    (void)cells, (void)cells_length, (void)tree, (void)tree_length, (void)table, (void)table_length, (void)sheet, (void)sheet_length;
    (void)out, (void)out_length;
    abort();
}
