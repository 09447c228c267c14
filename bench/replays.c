/*
 * Images that leave, one by one in a random order, until three are left: the archive's replay, the same in C, and what a program does
 * that has no replay, which is to make each smaller table and read it by the archive's second engine.
 */
#include "replays.h"

#include <stdio.h>
#include <stdlib.h>
#include <string.h>

#include "kemotuiki.h"
#include "plain.h"
#include "race.h"
#include "tables.h"

enum { COUNT = 3 };
static const char head[] = "| Table | n | events | archive, µs | C, µs | archive / C | read anew, µs | anew / archive |\n|---|---|---|---|---|---|---|---|\n";

static int printing;
static size_t n, count;
static uint32_t table[4096], costs[125];
static uint64_t fars[125];
static uint8_t events[61];
static KemotuikiReplay answer;

static void ours(void) { answer = kemotuiki_replay(n, table, n * n, events, count, fars, 125, costs, 125); }
static void mending(void) {
    answer.number = (size_t)plain_replay(n, table, n * n, events, count, fars, costs, 125, &answer.images, &answer.rows, &answer.event);
}

/* Row and column x, counted from 0, are taken out of the table of m images. */
static void take_out(size_t m, size_t x, uint32_t *t) {
    uint32_t *to = t;
    for (size_t i = 0; i < m; i++) {
        if (i == x) continue;
        memmove(to, t + i * m, x * sizeof *t);
        memmove(to + x, t + i * m + x + 1, (m - 1 - x) * sizeof *t);
        to += m - 1;
    }
}

static void anew(void) {
    static uint32_t smaller[4096];
    memcpy(smaller, table, n * n * sizeof *table);
    answer.rows = kemotuiki_exact_grafted(n, smaller, n * n, fars, 125, costs, 125).rows;
    for (size_t k = 0, m = n; k < count; k++) {
        take_out(m--, events[k] - 1u, smaller);
        answer.rows = kemotuiki_exact_grafted(m, smaller, m * m, fars, 125, costs, 125).rows;
    }
    answer.images = n - count;
}

static Call *const calls[COUNT] = {ours, mending, anew};

/* Stops unless all leave the same images and rows after this many events. */
static void compare(const char *name) {
    KemotuikiReplay first = {0};
    uint64_t first_fars[125];
    uint32_t first_costs[125];
    for (size_t i = 0; i < COUNT; i++) {
        memset(fars, 0, sizeof fars), memset(costs, 0, sizeof costs), memset(&answer, 0, sizeof answer);
        calls[i]();
        if (i == 0) first = answer, memcpy(first_fars, fars, sizeof fars), memcpy(first_costs, costs, sizeof costs);
        int same = !memcmp(&answer, &first, sizeof answer) && !answer.number && answer.images == n - count;
        if (same && !memcmp(fars, first_fars, answer.rows * 8) && !memcmp(costs, first_costs, answer.rows * 4)) continue;
        fprintf(stderr, "%s at %zu: call %zu differs after %zu events\n", name, n, i, count);
        exit(1);
    }
}

static void race_replays(const char *name, void (*make)(size_t n, uint32_t *t)) {
    double us[COUNT];
    seed(7), make(n, table);
    seed(13);
    for (size_t k = 0; k < n - 3; k++) events[k] = (uint8_t)(1 + dice((uint32_t)(n - k)));
    for (count = 0; count < n - 3; count++) compare(name);
    compare(name);
    race(COUNT, calls, us);
    if (printing)
        printf("| %s | %zu | %zu | %.1f | %.1f | %.2f | %.1f | %.1f |\n", name, n, count, us[0], us[1], us[0] / us[1], us[2], us[2] / us[0]);
}

void replays(int print) {
    static const size_t sizes[] = {9, 16, 32, 64};
    printing = print;
    if (printing) printf("\n%s", head);
    for (size_t k = 0; k < 4; k++) {
        n = sizes[k];
        race_replays("caterpillar", caterpillar);
        race_replays("random tree", random_tree);
    }
}
