/*
 * The verbs. Each has a file of its name, with a function that takes the words from the verb on, the first of them as messages name it, and
 * says the exit status.
 */
#ifndef VERBS_H
#define VERBS_H

/* Names, and what they do. */
#define VERBS(VERB)                                                                   \
    VERB(judge, "say whether a report fits a pattern, in one way or in several")      \
    VERB(turns, "say how many turns of each mark of a pattern read text in a report") \
    VERB(sheet, "say the turns of each mark in all reports of a night, beside last night's")

#define DECLARE_VERB(name, summary) int run_##name(int count, char **words);
VERBS(DECLARE_VERB)

#endif
