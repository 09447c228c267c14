#define _POSIX_C_SOURCE 199309L
#include "race.h"

#include <time.h>

static double least[256][4]; /* of each race so far; 0 before its first turn */
static size_t races;

static double now(void) {
    struct timespec t;
    clock_gettime(CLOCK_PROCESS_CPUTIME_ID, &t);
    return t.tv_sec + 1e-9 * t.tv_nsec;
}

static double turn(Call *call, double seconds) {
    double start = now(), end;
    size_t times = 0;
    do {
        call();
        times++;
        end = now();
    } while (end - start < seconds);
    return 1e6 * (end - start) / times;
}

void begin_pass(void) { races = 0; }

void race(size_t count, Call *const *calls, double *microseconds) {
    double *best = least[races++];
    for (int k = 0; k < 5; k++)
        for (size_t i = 0; i < count; i++) {
            double x = turn(calls[i], 0.006);
            if (best[i] == 0 || x < best[i]) best[i] = x;
        }
    for (size_t i = 0; i < count; i++) microseconds[i] = best[i];
}
