/* Rows written in words, for the fixed cases. */
#ifndef WORDS_H
#define WORDS_H

#include "rows.h"

/* A row of tokens in the desk's words, oH, cH and bB; a number alone is that token. */
struct row row_of(const char *words);

/* Numbers of 64 bits, each after a space. */
struct row numbers_of(const char *words);

/* The words as lines: byte 10 behind each. */
struct row lines_of(const char *words);

#endif
