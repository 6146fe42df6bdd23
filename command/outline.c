#include "outline.h"

#include <stdio.h>
#include <string.h>

#include "dimmhalt.h"
#include "quote.h"

#define LINE_WIDTH 100
#define LABEL_WIDTH 10

/* Up to so many marks in each other are indented by two spaces each; in deeper trees it is one, so that a line never runs out of width. */
#define WIDE_STEPS 20

/* How many bytes of the report are read where the part closes that a token opens. */
static uint16_t read_to[DIMMHALT_MOST_ROOM];

static int opens(uint16_t token) { return token >= DIMMHALT_OPENS(1) && token <= DIMMHALT_OPENS(DIMMHALT_MARK_LIMIT); }
static int closes(uint16_t token) { return token >= DIMMHALT_CLOSES(1) && token <= DIMMHALT_CLOSES(DIMMHALT_MARK_LIMIT); }
static int is_byte(uint16_t token) { return token >= DIMMHALT_BYTE(0) && token <= DIMMHALT_BYTE(255); }

/* A walk along a row of tokens: which are open, and how many bytes are read. */
struct walk {
    size_t open_at[DIMMHALT_MARK_LIMIT];
    size_t depth, read;
};

/* Takes one token, and says whether it can stand there. */
static int take_token(struct outline *outline, struct walk *walk, size_t at) {
    uint16_t token = outline->tree[at];
    if (opens(token)) {
        if (walk->depth == DIMMHALT_MARK_LIMIT) return 0;
        walk->open_at[walk->depth++] = at;
        if (walk->depth > outline->deepest) outline->deepest = walk->depth;
        return 1;
    }
    if (closes(token)) {
        if (walk->depth == 0 || DIMMHALT_CLOSES(outline->tree[walk->open_at[walk->depth - 1]]) != token) return 0;
        read_to[walk->open_at[--walk->depth]] = (uint16_t)walk->read;
        return 1;
    }
    if (!is_byte(token) || walk->read == outline->report.length) return 0;
    return DIMMHALT_BYTE(outline->report.first[walk->read++]) == token;
}

int take_tree(struct outline *outline, const uint16_t *tree, size_t length, struct bytes report) {
    struct walk walk = {.depth = 0, .read = 0};
    *outline = (struct outline){tree, length, report, 0};
    if (length > DIMMHALT_MOST_ROOM) return 0;
    for (size_t at = 0; at < length; at++) {
        if (!take_token(outline, &walk, at)) return 0;
    }
    return walk.depth == 0 && walk.read == report.length;
}

/* A line as it is put together. */
struct line {
    char text[2 * LINE_WIDTH];
    size_t used;
};

static void put_text(struct line *line, const char *text) {
    for (; *text != '\0'; text++) line->text[line->used++] = *text;
}

static void put_spaces(struct line *line, size_t count) {
    memset(line->text + line->used, ' ', count);
    line->used += count;
}

static void print_line(const char *label, size_t indent, struct bytes read) {
    struct line line = {.used = 0};
    put_text(&line, switch_to(DIM));
    put_text(&line, label);
    put_text(&line, switch_to(PLAIN));
    put_spaces(&line, LABEL_WIDTH - strlen(label) + indent);
    line.used += quote(read, LINE_WIDTH - LABEL_WIDTH - indent, line.text + line.used);
    put_text(&line, read.length == 0 ? " (nothing)\n" : "\n");
    fwrite(line.text, 1, line.used, stdout);
}

/* Prints the line of the part that a token opens, which so many marks stand around, its own among them. */
static void print_part(const struct outline *outline, size_t at, size_t depth, size_t read) {
    size_t step = outline->deepest > WIDE_STEPS ? 1 : 2;
    struct bytes part = {outline->report.first + read, read_to[at] - read};
    char label[MARK_LABEL_MOST];
    put_mark_label(outline->tree[at], label);
    print_line(label, depth * step, part);
}

void print_outline(const struct outline *outline) {
    size_t depth = 0, read = 0;
    print_line("report", 0, outline->report);
    for (size_t at = 0; at < outline->length; at++) {
        uint16_t token = outline->tree[at];
        if (opens(token)) print_part(outline, at, ++depth, read);
        if (closes(token)) depth--;
        if (is_byte(token)) read++;
    }
}
