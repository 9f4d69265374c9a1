/* A schedule on standard input, lines on standard output: what `tick` and `trace` have in common. Both go through buffers of a fixed
 * size, so that the memory used does not depend on the input's length. */
#ifndef PLAY_H
#define PLAY_H
#include "machine.h"

extern const int body_length[13];               /* the length of the body of each kind */

/* Reads the next record and performs it on the machine; its answer. Letter 0: the input has ended where a record would begin. */
struct answer play_record(void);

/* Refusals 1 to 3 end reading (reading 22). */
static inline int ends_reading(struct answer a) { return a.letter == 'R' && a.number <= 3; }

void put_text(const char *text);
void put_number(u64 x);                         /* decimal */
void put_answer(u64 number, struct answer a);   /* a record's line */
void put_values(void);                          /* the last line, if there was a good setup */
int finish(void);                               /* writes what is still in the buffer; the exit status */
#endif
