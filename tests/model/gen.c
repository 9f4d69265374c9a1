/* gen SEED: one random schedule on standard output, the same for the same seed.
 * gen FROM TO DIR: the schedules of these seeds, each in a file DIR/SEED.
 * gen -n RECORDS SEED: one long schedule without a refused record, about that many records.
 * It runs the machine on what it has written so far, only to know what goes on: so most records are accepted, workers get into each
 * other's way, and the refused records are the wanted ones. What the schedule is tested against plays no part here. */
#include "spoil.h"
#include <stdlib.h>
#include <string.h>

/* ---- A schedule of a seed ---- */

static void sizes(void) {
    t.n = chance(68) ? between(1, 4) : chance(75) ? between(4, 8) : between(1, 64);
    t.k = chance(85) ? between(1, 4) : between(1, 16);
    t.w = chance(85) ? between(chance(90) ? 2 : 1, 4) : between(1, 8);
    if (t.k < t.w && chance(60))
        t.k = t.w;
    if (chance(4))
        t.n = 64, t.k = 16, t.w = 8;
    if (chance(4))
        t.n = between(32, 64), t.k = between(8, 16), t.w = between(5, 8);
    t.hot = between(1, t.n < 5 ? t.n : 5);
    t.base = chance(50) ? 0 : chance(30) ? t.n - 1 : below(t.n);
}

static int length(void) {
    if (chance(1))
        return chance(25) ? between(30000, 110000) : between(2000, 12000);
    return chance(40) ? between(24, 120) : chance(70) ? between(100, 350) : between(300, 600);
}

static void temper(void) {
    static const int bursts[5] = { 1, 2, 3, 6, 12 }, crashes[6] = { 0, 0, 3, 6, 12, 25 }, noises[4] = { 10, 30, 60, 120 };
    t.burst = bursts[below(5)];
    t.crash_rate = crashes[below(6)];
    t.noise_rate = noises[below(4)];
    t.back_rate = 20 + below(150);
    t.read_share = 10 + below(40);
    t.match_share = chance(80) ? 90 : 40;
    t.together = chance(70) ? 60 : 10;
    t.values = chance(40) ? 2 : chance(80) ? 4 : 3;
    t.high = chance(6);
    t.limit = length();
}

static void action(void) {
    int what = below(1000), worker = below(t.w), trouble = worker_in_trouble();
    if (records >= stalled_until) {
        stalled = t.w > 1 && chance(60) ? below(t.w) : -1;
        stalled_until = records + between(10, 80);
    }
    if (m.recovering && chance(95))
        recovery_action();
    else if (what < t.crash_rate)
        put_0(0x0B);
    else if ((what -= t.crash_rate) < t.noise_rate)
        noise();
    else if ((what -= t.noise_rate) < t.back_rate)
        write_back();
    else if ((what -= t.back_rate) < 25)
        early_free();
    else if (what < 40)
        chain();
    else if (what < 60)
        overtaken();
    else if (what < 260 && trouble >= 0)
        steps(trouble, between(1, 2));
    else if (m.worker[worker].owns == NOTHING)
        idle_worker(worker);
    else if (m.worker[worker].owns == BUILDING)
        build_on(worker);
    else if (worker != stalled)
        steps(worker, some_burst());
}

static void contended(int staged, int untracked) {
    if (staged) {
        t.n = t.n < 4 ? 4 : t.n;
        t.k = t.k < 3 ? 3 : t.k;
        t.w = t.w < 3 ? 3 : t.w;
    }
    put_setup();
    if (staged && chance(70))
        chain();
    else if (staged)
        overtaken();
    while (records < t.limit) {
        if (untracked)
            wild();
        else
            action();
    }
}

/* Of a hundred seeds five have no good setup, three are garbage, ten are damaged: at the end, cut anywhere, in some bytes. */
static void schedule(u64 of) {
    seed = of;
    next();
    temper();
    sizes();
    int damage = below(100), untracked = chance(4), staged = chance(10);
    if (damage < 5) {
        damaged_start();
    } else if (damage < 8) {
        garbage();
    } else {
        contended(staged, untracked);
        if (damage < 12)
            damaged_end();
        else if (damage < 16)
            cut_anywhere();
        else if (damage < 18)
            alter();
    }
}

/* ---- A long schedule: eight workers on four words, each record accepted ---- */

static void begin_something(int worker) {
    if (chance(30)) {
        put_2(0x06, worker, below(t.n));
        return;
    }
    put_1(0x01, worker);
    for (int a = 0, left = between(1, t.n); a < t.n && left > 0; a++)
        if (below(t.n - a) < left) {
            put(0x02, worker, a, likely_value(a), (u64)below(t.values));
            left--;
        }
    put_1(0x04, worker);
}

static void long_schedule(u64 count) {
    u64 done = 0;
    t.n = 4, t.k = 8, t.w = 8, t.values = 3;
    t.hot = t.n;
    put_setup();
    while (done + (u64)records < count) {
        int worker = below(t.w), what = below(2000);
        if (m.recovering)
            put_0(0x0C);
        else if (what == 0)
            put_0(0x0B);
        else if (what < 20)
            write_back();
        else if (m.worker[worker].owns == NOTHING)
            begin_something(worker);
        else
            for (int i = between(1, 6); i > 0 && runs(&m.worker[worker]) && take_step(worker) != 'W'; i--)
                ;
        if (stored() > 1 << 15) {
            write_store(stdout);
            done += (u64)records;
            records = 0;
        }
    }
    write_store(stdout);
}

/* ---- Modes ---- */

static u64 number(const char *text) {
    char *end;
    u64 x = strtoull(text, &end, 10);
    if (*text < '0' || *text > '9' || *end != 0) {
        fprintf(stderr, "gen: '%s' is no number\n", text);
        exit(2);
    }
    return x;
}

static void to_file(u64 of, const char *directory) {
    char name[4096];
    snprintf(name, sizeof name, "%.4000s/%llu", directory, (unsigned long long)of);
    FILE *file = fopen(name, "wb");
    if (!file) {
        perror(name);
        exit(1);
    }
    schedule(of);
    write_store(file);
    if (fclose(file) != 0) {
        perror(name);
        exit(1);
    }
}

int main(int argc, char **argv) {
    if (argc == 2) {
        schedule(number(argv[1]));
        write_store(stdout);
    } else if (argc == 4 && strcmp(argv[1], "-n") == 0) {
        seed = number(argv[3]);
        long_schedule(number(argv[2]));
    } else if (argc == 4) {
        for (u64 of = number(argv[1]), last = number(argv[2]); of <= last; of++)
            to_file(of, argv[3]);
    } else {
        fprintf(stderr, "usage: gen SEED | gen FROM TO DIR | gen -n RECORDS SEED\n");
        return 2;
    }
    return fflush(stdout) == 0 && !ferror(stdout) ? 0 : 1;
}
