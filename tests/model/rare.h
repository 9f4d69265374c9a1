/* How often the rarer events came about: a set of schedules that misses one tests less than it seems to. */
#ifndef RARE_H
#define RARE_H
#include "shown.h"

struct seen { const struct state *before, *now; int n, k, w; };         /* what a record was shown to do, and the sizes */

void count_record(const struct seen *s, char letter, int number);
int count_wait(const struct seen *s);           /* W; answers whether somebody waits for somebody */
void print_counts(void);
#endif
