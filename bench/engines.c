/*
 * Both engines of the exact reading, on tables that have a tree and on tables that have none: the archive's two calls, and the second
 * engine in C.
 */
#include "engines.h"

#include <stdio.h>
#include <stdlib.h>
#include <string.h>

#include "kemotuiki.h"
#include "plain.h"
#include "race.h"
#include "tables.h"

enum { COUNT = 3 };
static const char head[] = "| Table | n | first engine, µs | second engine, µs | C that grafts, µs | second / C | first / second |\n|---|---|---|---|---|---|---|\n";

static int printing;
static size_t n;
static uint32_t table[4096], costs[125];
static uint64_t fars[125];
static KemotuikiRows answer;

static void first(void) { answer = kemotuiki_exact(n, table, n * n, fars, 125, costs, 125); }
static void second(void) { answer = kemotuiki_exact_grafted(n, table, n * n, fars, 125, costs, 125); }
static void grafting(void) { answer.number = (size_t)plain_exact_grafted(n, table, n * n, fars, costs, 125, &answer.rows); }
static Call *const calls[COUNT] = {first, second, grafting};

/* Stops unless all answer as the first engine in C: its number, which is 0 or 7, and its rows. Both engines of the archive name the
 * same four images; the C names none. */
static void compare(const char *name, size_t number) {
    KemotuikiRows archive = {0};
    uint64_t plain_fars[125] = {0};
    uint32_t plain_costs[125] = {0};
    size_t rows = 0;
    int same = plain_exact(n, table, n * n, plain_fars, plain_costs, 125, &rows) == (int)number;
    for (size_t i = 0; i < COUNT; i++) {
        memset(fars, 0, sizeof fars), memset(costs, 0, sizeof costs), memset(&answer, 0, sizeof answer);
        calls[i]();
        if (i == 0) archive = answer;
        same &= answer.number == number && answer.rows == rows && !memcmp(fars, plain_fars, sizeof fars);
        same &= !memcmp(costs, plain_costs, sizeof costs) && (i == 2 || !memcmp(&answer, &archive, sizeof answer));
        if (same) continue;
        fprintf(stderr, "%s at %zu: call %zu differs\n", name, n, i);
        exit(1);
    }
}

static void race_engines(const char *name, size_t number) {
    double us[COUNT];
    compare(name, number);
    race(COUNT, calls, us);
    if (printing) printf("| %s | %zu | %.1f | %.1f | %.1f | %.2f | %.1f |\n", name, n, us[0], us[1], us[2], us[1] / us[2], us[0] / us[1]);
}

static void accepted(const char *name, void (*make)(size_t n, uint32_t *t)) {
    seed(7), make(n, table);
    race_engines(name, 0);
}

/* The entry of the third image from the end and the last one is 1 too large. The fours that fail come late in the scan, and of the
 * grafts the last one alone meets it. */
static void refused_late(const char *name, void (*make)(size_t n, uint32_t *t)) {
    seed(7), make(n, table);
    table[(n - 3) * n + n - 1]++, table[(n - 1) * n + n - 3]++;
    race_engines(name, 7);
}

void engines(int print) {
    static const size_t sizes[] = {9, 16, 32, 64};
    printing = print;
    if (printing) printf("\n%s", head);
    for (size_t k = 0; k < 4; k++) {
        n = sizes[k];
        accepted("caterpillar", caterpillar);
        accepted("balanced", balanced);
        accepted("star", star);
        accepted("random tree", random_tree);
        seed(7), random_table(n, table);
        race_engines("random table, refused early", 7);
        refused_late("caterpillar, refused late", caterpillar);
        refused_late("balanced, refused late", balanced);
    }
}
