/* bench_images: nanoseconds of a whole recovery at n = 64, k = 16, all descriptors live with four entries each, ours and the model's.
 * Every round first copies the saved image back, and every time has that copy in it; the copy alone is timed too. */
#include "images.h"
#include "pmwcas_recovery.h"
#include "recover.h"
#include <string.h>
#include <time.h>

enum { ROUNDS = 20000, BATCHES = 25 };

static struct image saved, im;
typedef u64 (*recovery)(void);          /* the steps of a round */

static u64 by_ours(void) { return pmwcas_recover(im.n, im.k, im.bytes, im.length, UINT64_MAX).steps; }
static u64 by_model(void) { return model_recover(im.n, im.k, im.bytes, im.length, UINT64_MAX).steps; }
static u64 by_nobody(void) { return 10 * MAX_DESCRIPTORS; }

static double now(void) {
    struct timespec ts;
    clock_gettime(CLOCK_MONOTONIC, &ts);
    return 1e9 * (double)ts.tv_sec + (double)ts.tv_nsec;
}

/* Nanoseconds a round; 0 if one took another number of steps. */
static double batch(volatile recovery *f) {
    u64 steps = 0;
    double start = now();
    for (int i = 0; i < ROUNDS; i++) {
        memcpy(im.bytes, saved.bytes, saved.length);
        steps += (*f)();                /* volatile: it may be any function, so the copy is made */
    }
    double time = (now() - start) / ROUNDS;
    return steps == (u64)ROUNDS * 10 * MAX_DESCRIPTORS ? time : 0;
}

int main(void) {
    static volatile recovery way[3] = { by_ours, by_model, by_nobody };
    double best[3] = { 0, 0, 0 };
    full_image(&saved);
    im = saved;
    for (int i = 0; i < BATCHES; i++)
        for (int j = 0; j < 3; j++) {
            double time = batch(&way[j]);
            if (time <= 0) {
                printf("bench_images: not all steps were taken\n");
                return 1;
            }
            if (i == 0 || time < best[j])
                best[j] = time;
        }
    printf("recovery, n=64, k=16, 160 steps: %.1f ns a round; the model in C: %.1f ns; ratio %.2f (each with the copy of the image, which"
           " takes %.1f ns; without it the ratio is %.2f)\n",
           best[0], best[1], best[0] / best[1], best[2], (best[0] - best[2]) / (best[1] - best[2]));
    return 0;
}
