/* Workers that build, step, wait, crash and recover. */
#ifndef CONTEND_H
#define CONTEND_H
#include "choose.h"

int count_of(int worker);                       /* of one that builds */
int has(int worker, int address);
void add(int worker, int address);
void add_some(int worker);
void take_out(int worker);
void idle_worker(int worker);                   /* begins a read or an operation */
void build_on(int worker);
void steps(int worker, int count);
int some_burst(void);
void write_back(void);
void early_free(void);
void recover(int count);
void chain(void);
void overtaken(void);
#endif
