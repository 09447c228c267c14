/*
 * The measured reading on tables of every shape: the archive, the same algorithm in C, the algorithm before it in C, and, built
 * with -DEARLIER, the archive of an earlier state, whose call is renamed earlier_measured.
 */
#include "shapes.h"

#include <stdio.h>
#include <stdlib.h>
#include <string.h>

#include "kemotuiki.h"
#include "plain.h"
#include "race.h"
#include "tables.h"

static int printing;
static size_t n, rows;
static uint32_t table[4096], costs[125];
static uint64_t fars[125];

static void archive(void) { rows = kemotuiki_measured(n, table, n * n, fars, 125, costs, 125).rows; }
static void chains(void) { plain_measured(n, table, n * n, fars, costs, 125, &rows); }
static void before(void) { plain_measured_before(n, table, n * n, fars, costs, 125, &rows); }
#ifdef EARLIER
/* The answers of all versions have at most eleven words, with the rows in the seventh. */
typedef struct { size_t words[11]; } Earlier;
Earlier earlier_measured(size_t n, const uint32_t *t, size_t t_count, uint64_t *fars, size_t fars_count, uint32_t *costs, size_t costs_count);
static void earlier(void) { rows = earlier_measured(n, table, n * n, fars, 125, costs, 125).words[6]; }
static Call *const calls[] = {archive, chains, before, earlier};
static const char head[] = "| Table | n | archive, µs | C, µs | archive / C | before in C, µs | before / archive | earlier archive, µs | earlier / archive |\n|---|---|---|---|---|---|---|---|---|\n";
#else
static Call *const calls[] = {archive, chains, before};
static const char head[] = "| Table | n | archive, µs | C, µs | archive / C | before in C, µs | before / archive |\n|---|---|---|---|---|---|---|\n";
#endif
enum { COUNT = sizeof calls / sizeof *calls };

/* Stops unless all answer with the same rows. */
static void compare(const char *name) {
    uint64_t first_fars[125];
    uint32_t first_costs[125];
    archive();
    size_t first = rows;
    memcpy(first_fars, fars, sizeof fars), memcpy(first_costs, costs, sizeof costs);
    for (size_t i = 1; i < COUNT; i++) {
        calls[i]();
        if (rows == first && !memcmp(fars, first_fars, first * 8) && !memcmp(costs, first_costs, first * 4)) continue;
        fprintf(stderr, "%s at %zu: call %zu differs\n", name, n, i);
        exit(1);
    }
}

static void shape(const char *name, void (*make)(size_t n, uint32_t *t), int raised) {
    double us[COUNT];
    seed(7), make(n, table);
    if (raised) raise(n, table);
    compare(name);
    race(COUNT, calls, us);
    if (!printing) return;
    printf("| %s | %zu | %.1f | %.1f | %.2f | %.1f | %.1f |", name, n, us[0], us[1], us[0] / us[1], us[2], us[2] / us[0]);
    if (COUNT > 3) printf(" %.1f | %.1f |", us[COUNT - 1], us[COUNT - 1] / us[0]);
    printf("\n");
}

void shapes(int print) {
    static const size_t sizes[] = {9, 16, 32, 64};
    printing = print;
    if (printing) printf("\n%s", head);
    for (size_t k = 0; k < 4; k++) {
        n = sizes[k];
        shape("caterpillar", caterpillar, 0);
        shape("caterpillar, raised", caterpillar, 1);
        shape("star", star, 0);
        shape("balanced", balanced, 0);
        shape("random tree", random_tree, 0);
        shape("random tree, raised", random_tree, 1);
        shape("random table", random_table, 0);
    }
}
