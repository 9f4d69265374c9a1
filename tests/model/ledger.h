/* What ledger.c and swaps.c share. */
#ifndef LEDGER_H
#define LEDGER_H
#include "shown.h"

extern struct state now, before;                /* after and before the record at hand */
extern int n, k, w;
void violation(const char *what);

/* ---- swaps.c ---- */
extern u64 changes;                             /* how often the ledger has changed */
void fresh_ledger(void);
void follow(char letter, u64 number);           /* one record, its state applied */
u64 value(int a);                               /* the value of a word */
#endif
