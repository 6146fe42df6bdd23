/* Batches of cases on standard input. */
#ifndef BATCH_H
#define BATCH_H

/* In which form it is said what came out of a case. */
enum form { IN_FULL, AS_LINES };

/* Makes the call of each case and writes what came out. Ends the program if the batch is not in order. */
void run_batch(enum form form);

#endif
