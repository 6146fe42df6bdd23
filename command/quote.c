#include "quote.h"

#include <string.h>

#define ESCAPED_MOST 4

static const char cut[] = "\" ... \"";
#define CUT_WIDTH (sizeof cut - 1)

/* How a byte is shown, in so many characters as it says. */
static size_t escape(uint8_t byte, char *shown) {
    static const char digits[] = "0123456789abcdef";
    char letter = byte == '\n' ? 'n' : byte == '\t' ? 't' : byte == '"' || byte == '\\' ? (char)byte : '\0';
    shown[0] = '\\';
    if (letter != '\0') {
        shown[1] = letter;
        return 2;
    }
    if (byte < 32 || byte > 126) {
        shown[1] = 'x';
        shown[2] = digits[byte / 16];
        shown[3] = digits[byte % 16];
        return 4;
    }
    shown[0] = (char)byte;
    return 1;
}

void print_escaped(FILE *stream, const char *text) {
    char shown[ESCAPED_MOST];
    for (; *text != '\0'; text++) fwrite(shown, 1, escape((uint8_t)*text, shown), stream);
}

/* Puts bytes from the first on into `shown`, as many as go into `width` characters, and sets `taken` to their number. */
static size_t escape_first(struct bytes bytes, size_t width, char *shown, size_t *taken) {
    char escaped[ESCAPED_MOST];
    size_t used = 0, at = 0;
    for (; at < bytes.length; at++) {
        size_t more = escape(bytes.first[at], escaped);
        if (used + more > width) break;
        memcpy(shown + used, escaped, more);
        used += more;
    }
    *taken = at;
    return used;
}

/* How many bytes at the end go into `width` characters. */
static size_t count_last(struct bytes bytes, size_t width) {
    char escaped[ESCAPED_MOST];
    size_t used = 0, count = 0;
    for (; count < bytes.length; count++) {
        used += escape(bytes.first[bytes.length - 1 - count], escaped);
        if (used > width) break;
    }
    return count;
}

size_t put_number(uint64_t number, char *shown) {
    char digits[NUMBER_MOST], *at = digits + NUMBER_MOST;
    do {
        *--at = (char)('0' + number % 10);
        number /= 10;
    } while (number > 0);
    memcpy(shown, at, (size_t)(digits + NUMBER_MOST - at));
    return (size_t)(digits + NUMBER_MOST - at);
}

const char *grouped(uint64_t number, char room[GROUPED_MOST]) {
    char *at = room + GROUPED_MOST - 1;
    *at = '\0';
    for (int digits = 0; number > 0 || digits == 0; digits++) {
        if (digits > 0 && digits % 3 == 0) *--at = ',';
        *--at = (char)('0' + number % 10);
        number /= 10;
    }
    return at;
}

void put_mark_label(uint64_t mark, char label[MARK_LABEL_MOST]) {
    size_t used = sizeof MARK_LABEL - 1;
    memcpy(label, MARK_LABEL, used);
    if (mark < 10) label[used++] = ' ';
    used += put_number(mark, label + used);
    label[used] = '\0';
}

size_t quote(struct bytes bytes, size_t width, char *shown) {
    size_t taken, used = 1 + escape_first(bytes, width - 2, shown + 1, &taken);
    shown[0] = '"';
    if (taken < bytes.length) {
        size_t for_both = width - 2 - CUT_WIDTH, for_last = for_both * 2 / 5;
        size_t last = count_last(bytes, for_last);
        struct bytes end = {bytes.first + (bytes.length - last), last};
        used = 1 + escape_first(bytes, for_both - for_last, shown + 1, &taken);
        memcpy(shown + used, cut, CUT_WIDTH);
        used += CUT_WIDTH;
        used += escape_first(end, for_last, shown + used, &taken);
    }
    shown[used] = '"';
    return used + 1;
}
