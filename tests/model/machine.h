/* The step machine of document 01, written from the page and its readings alone; images are in recover.c.
 * "rule N" is line N of "The steps of an operation d"; "reading N" is that of docs/DECISIONS.md. */
#ifndef MACHINE_H
#define MACHINE_H
#include <stdint.h>

typedef uint64_t u64;

#define DIRTY       (UINT64_C(1) << 63)
#define POINTER     (UINT64_C(1) << 62)
#define PLAIN_LIMIT (UINT64_C(1) << 61)

enum { MAX_WORDS = 64, MAX_DESCRIPTORS = 16, MAX_WORKERS = 8, MAX_ENTRIES = 4 };
enum { FREE, UNDECIDED, SUCCEEDED, FAILED };               /* a status, apart from its dirty bit */
enum { NOTHING, BUILDING, OPERATION, READ };               /* what a worker owns */

/* The step whose turn is next: ten times the rule's number plus the part; the two parts of a read are below 10. */
enum {
    READ_LOOK = 1, READ_CLEAR = 2,
    OWN_BODY = 11, OWN_UNDECIDED = 12, OWN_STATUS = 13, INSTALL = 21, INSTALL_CLEAR = 22, POINTER_BACK = 31, POINTER_CLEAR = 32,
    DECIDE = 41, STATUS_BACK = 51, STATUS_CLEAR = 52, SWAP = 61, SWAP_BACK = 62, SWAP_CLEAR = 63, RELEASE = 71, ANSWER = 72
};

struct entry { u64 address, expected, desired; };
struct body { u64 count; struct entry entry[MAX_ENTRIES]; };
struct copy { u64 word[MAX_WORDS], status[MAX_DESCRIPTORS]; struct body body[MAX_DESCRIPTORS]; };

struct worker {
    u64 owns;                   /* NOTHING, BUILDING, OPERATION or READ */
    u64 own;                    /* the descriptor owned, or the address of the read */
    u64 job;                    /* the operation that is its current job; 0 while that is its read */
    u64 step, entry;            /* its place in the current job; entry is 0 where the step has none */
    u64 noted;                  /* at 2, clear and at the read's clear: the value seen; at 4 and 7, answer: the outcome; else 0 */
};

struct machine {                /* every member is a u64, so that two can be compared byte for byte */
    u64 n, k, w;                /* n is 0 before a good setup */
    struct copy cached, persisted;
    struct worker worker[MAX_WORKERS];
    u64 recovering, at, done;   /* in recovery: at descriptor `at`, `done` of its steps taken */
};
extern struct machine m;

struct answer { char letter; u64 number; };                /* letter 'O' is OK; 0 is no answer: the input has ended */

static inline struct answer answer(char letter, u64 number) {
    struct answer a = { letter, number };
    return a;
}

/* A record of kinds 01 to 0C; what its kind does not have is 0. first: worker, address (08) or descriptor (09, 0A); second: address. */
struct record { int kind; u64 first, second, expected, desired; };

/* ---- machine.c: every event ---- */
void impossible(const char *what);                          /* for what the page makes impossible: says so, exit 3 */
int find(const struct body *b, u64 address);                /* its place in the body, or -1 */
int lowest_openable(void);                                  /* kind 01: the descriptor to open, or -1 */
u64 value(u64 a);                                           /* the value of a word */
struct answer setup(u64 n, u64 k, u64 w);                   /* kind 00: a fresh memory, or R 1 */
u64 refusal(const struct record *r);                        /* refusals 4 to 17; 0: accepted */
struct answer perform(const struct record *r);              /* one accepted record */

/* ---- steps.c: kind 07 ---- */
struct answer step(struct worker *me);                      /* one step of a worker that runs something */

/* ---- Words, statuses, write-backs ---- */
static inline int is_pointer(u64 word) { return (word & POINTER) != 0; }
static inline u64 target(u64 word) { return word & ~(DIRTY | POINTER); }
static inline int points_to(u64 word, u64 d) { return is_pointer(word) && target(word) == d; }

/* Desired if the status is Succeeded, dirty or not, else expected. */
static inline u64 by_status(u64 status, const struct entry *e) {
    return (status & ~DIRTY) == SUCCEEDED ? e->desired : e->expected;
}

static inline void write_back_word(u64 a) { m.persisted.word[a] = m.cached.word[a]; }
static inline void write_back_status(u64 d) { m.persisted.status[d] = m.cached.status[d]; }
static inline void write_back_body(u64 d) { m.persisted.body[d] = m.cached.body[d]; }

/* ---- Workers ---- */
static inline int runs(const struct worker *me) { return me->owns == OPERATION || me->owns == READ; }

/* Its current job is an operation, its own or another's; else it is at its read, or runs nothing. */
static inline int at_operation(const struct worker *me) { return runs(me) && me->step > READ_CLEAR; }

static inline void become_idle(struct worker *me) {
    struct worker idle = { NOTHING, 0, 0, 0, 0, 0 };
    *me = idle;
}
#endif
