/* The generator's random choices, and its records: each is written and performed on the machine, only to know what goes on. */
#ifndef CHOOSE_H
#define CHOOSE_H
#include "machine.h"
#include <stddef.h>
#include <stdio.h>

/* ---- Random numbers ---- */
extern u64 seed;
u64 next(void);
int below(int x);
int between(int a, int b);
int chance(int percent);

/* ---- The schedule's temper: shares in hundreds, rates in thousands of actions ---- */
struct temper {
    int n, k, w, limit;                         /* sizes; about how many records */
    int hot, base;                              /* most addresses are base .. base + hot - 1, modulo n */
    int values, high;                           /* most values are below `values`; or, if high, that near to 2^61 */
    int burst, crash_rate, noise_rate, back_rate, read_share, match_share, together;
};
extern struct temper t;
extern int stalled, stalled_until;              /* a worker that takes no steps until so many records */

/* ---- The bytes, and the records among them ---- */
extern int records;
extern const int body_length[13];
void put_byte(int byte);
char put(int kind, int first, int second, u64 expected, u64 desired);  /* the letter of its answer */
char put_0(int kind);
char put_1(int kind, int first);
char put_2(int kind, int first, int second);
char take_step(int worker);
void put_setup(void);

/* Bytes are kept until they are written: to the file, emptying the store; exit 1 where that fails. */
size_t stored(void);
unsigned char *store(void);
void cut_store(size_t length);
void write_store(FILE *file);

/* ---- Choices ---- */
int some_address(void);
u64 some_value(void);
u64 bad_value(void);
int below_or_not(int top);
int not_below(int top);
enum { RUNS = 9 };
int worker_that(u64 owns);                      /* one of the workers that own `owns` (RUNS: that run something), or -1 */
int busy_descriptor(void);                      /* one that somebody is on; else any */
int busy_address(void);                         /* of an operation that somebody is on; else any */
u64 likely_value(int a);                        /* what the word holds or will hold */
int worker_in_trouble(void);                    /* one whose next step meets a pointer or a dirty word, or -1 */
#endif
