/* What a machine shows in the lines of docs/TRACE.md, as numbers. Nothing here knows the machine's rules. */
#ifndef SHOWN_H
#define SHOWN_H
#include <stdint.h>

typedef uint64_t u64;

enum { FREE, UNDECIDED, SUCCEEDED, FAILED };
enum { IDLE, BUILDING, OPERATION, READ };

struct word { int pointer, dirty; u64 number; };
struct status { int kind, dirty; };
struct entry { u64 address, expected, desired; };
struct body { int count; struct entry entry[4]; };
struct copy { struct word word[64]; struct status status[16]; struct body body[16]; };

/* step: 1 read word, 2 read clear; else ten times document 01's number plus the part (32 is `3 clear`, 71 `7 store Free`). */
struct worker {
    int owns, own;              /* own: the descriptor, or the address */
    int job;                    /* the operation that is its current job, or -1 */
    int step, entry;
    u64 seen;                   /* at 22 and 2 */
    char then;                  /* 'S' or 'F' at 41 (what it stores) and 72 (what it answers) */
};

struct state {
    struct copy cached, persisted;
    struct worker worker[8];
    int recovering, at, done;
};

/* Reads one line into the state. Answers its place in the order of lines (words from 0, statuses from 100, bodies from 200, workers from
 * 300, recovery 400), or -1 where the line is not of the format. */
int read_line(struct state *s, const char *line);

int same_body(const struct body *a, const struct body *b);
int same_place(const struct state *a, const struct state *b, int place);        /* the line of that place would be the same */
#endif
