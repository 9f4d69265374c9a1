/* ledger: reads on standard input the output of `trace` for any number of schedules, one after the other (a line of record 0 begins a
 * schedule; a line `#NAME` names the next), and checks each. Exit 1 on a violation. Prints how often everything came about.
 *
 * Checked, with the ledger as swaps.c has it:
 * 1. After every record the value of every word equals the ledger's.
 * 2. An operation that answers S is in the ledger since its submission. One that answers F is not, and at a moment since its submission
 *    the ledger differed from one of its expected values. A read that answers V v: the ledger had v there at a moment since it began.
 *    (The moments: after the record that submits or begins, up to and with the one that answers.)
 * 3. A body does not change while its operation runs. Who answers S, F or V stood at the step that answers it, and is idle.
 * 4. Recovery takes 2c+2 steps for each live descriptor and 1 for each Free one, counted from the last crash.
 * 5. Form: every line is of the format, in order and something changed; nothing follows a refusal or W; a step changes exactly one
 *    worker's place, A and Z that in recovery; records are numbered from 0; the fresh memory is fresh; the last line has the value of
 *    every word; the whole memory at the end is the sum of the changes. */
#include "ledger.h"
#include "rare.h"
#include <inttypes.h>
#include <stdio.h>
#include <string.h>

struct state now, before;
int n, k, w;
static u64 schedules, records, violations, z_checks, ended;
static char name[64] = "?", head[128];  /* the line of the record at hand; empty: none */

static int lines, last_place, worker_lines, recovery_lines;     /* state lines of the record at hand, or after the last line */
static u64 next_number;                                         /* of the next record */
static int awaited, over, whole;        /* the last line is to come; a refusal 1 to 3 was given; the last line was read */

void violation(const char *what) {
    if (violations++ < 20)
        printf("VIOLATION in schedule %s at '%s': %s\n", name, head, what);
}

/* ---- State lines ---- */

static void begin_lines(void) {
    lines = worker_lines = recovery_lines = 0;
    last_place = -1;
    before = now;
}

static void state_line(const char *line) {
    int place = read_line(&now, line), first = next_number == 1 && !whole;
    if (place < 0 || place <= last_place) {
        violation(place < 0 ? "a line that is not of the format" : "a line out of order");
        return;
    }
    if (first) {
        n += place / 100 == 0;
        k += place / 100 == 1;
        w += place / 100 == 3;
    } else if (same_place(&before, &now, place) != whole) {
        violation(whole ? "the whole memory is not the sum of the changes" : "a line for something that did not change");
    }
    if (!first && place < 400 && place % 100 >= (place < 100 ? n : place < 300 ? k : w))
        violation("a line past the sizes");
    lines++;
    worker_lines += place / 100 == 3;
    recovery_lines += place == 400;
    last_place = place;
}

static void check_form(char letter, u64 number) {
    if ((letter == 'R' || letter == 'W') && lines != 0)
        violation("lines after a refusal or W");
    if (letter == 'R' && (number < 1 || number > 17))
        violation("a refusal not in 1 to 17");
    if (strchr("MHSFVD", letter) && (worker_lines != 1 || recovery_lines != 0))
        violation("a step or an opening that does not change exactly one worker's place");
    if (strchr("AZ", letter) && (worker_lines != 0 || recovery_lines != 1))
        violation("a recovery step that does not change the place in recovery");
}

static void check_fresh(void) {
    static struct state fresh;
    int good = n > 0 && k > 0 && w > 0 && lines == n + 2 * k + w + 1;
    for (int i = 0; i < 8; i++)
        fresh.worker[i].job = -1;
    for (int i = 0; i < 64; i++)
        good = good && (i >= n || same_place(&fresh, &now, i)) && (i >= k || same_place(&fresh, &now, 100 + i))
            && (i >= k || same_place(&fresh, &now, 200 + i)) && (i >= w || same_place(&fresh, &now, 300 + i));
    if (!good || now.recovering)
        violation("the memory of the setup is not shown whole, or not fresh");
}

/* ---- Answer lines ---- */

/* An answer line into its letter ('O' is OK) and number; the letter is 0 where it is none. */
static char read_answer(const char *line, u64 *record, u64 *number) {
    char answer[8], built[128];
    *number = 0;
    if (sscanf(line, "%" SCNu64 " %7s %" SCNu64, record, answer, number) < 2)
        return 0;
    int with = strcmp(answer, "D") == 0 || strcmp(answer, "H") == 0 || strcmp(answer, "V") == 0 || strcmp(answer, "R") == 0;
    if (!with && strcmp(answer, "OK") != 0 && (answer[1] != 0 || !strchr("MWSFAZ", answer[0])))
        return 0;
    if (with)
        snprintf(built, sizeof built, "%" PRIu64 " %s %" PRIu64, *record, answer, *number);
    else
        snprintf(built, sizeof built, "%" PRIu64 " %s", *record, answer);
    return strcmp(line, built) == 0 ? answer[0] : 0;
}

/* The record at hand has shown all it changed. */
static void record_ends(void) {
    u64 record, number;
    char letter = read_answer(head, &record, &number);
    if (head[0] == 0)
        return;
    if (letter == 0) {
        violation("a line that is no answer");
    } else {
        struct seen s = { &before, &now, n, k, w };
        records++;
        z_checks += letter == 'Z';
        check_form(letter, number);
        if (record == 0 && letter == 'O')
            check_fresh();
        follow(letter, number);
        count_record(&s, letter, letter == 'R' && number > 17 ? 0 : (int)number);
        if (letter == 'W' && !count_wait(&s))
            violation("W, but nobody waits for anybody");
    }
    head[0] = 0;
}

static void schedule_begins(void) {
    if (awaited)
        violation("the schedule before has no last line");
    if (whole && lines != n + 2 * k + w + 1)
        violation("the whole memory of the schedule before is not shown");
    memset(&now, 0, sizeof now);
    n = k = w = awaited = over = whole = 0;
    next_number = 0;
    fresh_ledger();
}

static void answer_line(const char *line) {
    u64 record, number;
    record_ends();
    snprintf(head, sizeof head, "%.120s", line);
    char letter = read_answer(line, &record, &number);
    if (letter != 0 && record == 0) {
        schedule_begins();
        schedules++;
        awaited = letter == 'O';
    }
    if (letter != 0 && (record != next_number || over || whole || (record > 0 && !awaited)))
        violation("a record out of turn");
    next_number++;
    if (letter == 'R' && number <= 3) {
        over = 1;
        ended++;
    }
    begin_lines();
}

static void last_line(const char *line) {
    char wanted[64 * 22], *at = wanted;
    record_ends();
    snprintf(head, sizeof head, "%.120s", line);
    if (!awaited)
        violation("a last line out of turn");
    *at++ = '=';
    for (int a = 0; a < n; a++)
        at += sprintf(at, " %" PRIu64, value(a));
    *at = 0;
    if (strcmp(wanted, line) != 0)
        violation("the last line is not the values");
    awaited = 0;
    whole = 1;
    begin_lines();
    head[0] = 0;
}

int main(void) {
    static char line[4096];
    while (fgets(line, sizeof line, stdin)) {
        line[strcspn(line, "\n")] = 0;
        if (line[0] == '#') {
            record_ends();
            snprintf(name, sizeof name, "%.60s", line + 1);
        } else if (line[0] == ' ') {
            state_line(line);
        } else if (line[0] == '=') {
            last_line(line);
        } else {
            answer_line(line);
        }
    }
    record_ends();
    schedule_begins();
    printf("%" PRIu64 " schedules (%" PRIu64 " ended by a refusal 1 to 3), %" PRIu64 " records, %" PRIu64 " ledger changes, %" PRIu64 " checks at Z\n",
           schedules, ended, records, changes, z_checks);
    printf("violations: %" PRIu64 "\n", violations);
    print_counts();
    return violations != 0;
}
