/* A tree as an outline that a person reads. */
#ifndef OUTLINE_H
#define OUTLINE_H

#include "shared.h"

struct outline {
    const uint16_t *tree;
    size_t length;
    struct bytes report;
    size_t deepest; /* how many marks are open at once, at most */
};

/* Takes a row of tokens, finds where each of its parts ends, and says whether it is a tree of the report. */
int take_tree(struct outline *outline, const uint16_t *tree, size_t length, struct bytes report);

/*
 * Prints it: a line for the whole report, then one for each branch that was taken and each turn of a repeated part, with its mark and with
 * the bytes that it read, indented by how many marks stand around it.
 */
void print_outline(const struct outline *outline);

#endif
