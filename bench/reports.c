/*
 * Term reports over 125, 250 and 500 stored cost tables: the archive's, and the same in C. The trees of a term are drawn from a few
 * random ones, so that their inner links fit into a report: each table has the links of one of these, but for one inner link in eight,
 * which is left out, and costs of its own. The two stored forms take turns.
 */
#include "reports.h"

#include <stdio.h>
#include <stdlib.h>
#include <string.h>

#include "kemotuiki.h"
#include "plain.h"
#include "race.h"
#include "tables.h"

enum { COUNT = 2, SIZES = 3, TABLES = KEMOTUIKI_REPORT_TABLES, ROOM = KEMOTUIKI_REPORT_SIDES };
static const char head[] = "| n | tables | bytes | far sides | archive, µs | C, µs | archive / C | archive, µs a table |\n"
                           "|---|---|---|---|---|---|---|---|\n";

/* A term: its stored tables one after another, and where each ends. */
typedef struct {
    uint8_t bytes[TABLES * KEMOTUIKI_COST_BYTES];
    size_t ends[TABLES];
} Term;

/* What a report answers and leaves. */
typedef struct {
    KemotuikiReport answer;
    uint64_t fars[ROOM], sums[ROOM];
    uint32_t trees[ROOM];
} Left;

static int printing;
static Term terms[SIZES];
static const uint8_t *bytes;
static size_t used;
static Left left;

static void ours(void) { left.answer = kemotuiki_report(bytes, used, left.fars, ROOM, left.trees, ROOM, left.sums, ROOM); }
static void merging(void) {
    PlainReport r;
    size_t number = (size_t)plain_report(bytes, used, left.fars, left.trees, left.sums, ROOM, &r);
    left.answer = (KemotuikiReport){number, r.table, 0, 0, 0, 0, r.images, r.tables, r.accepted,
                                    r.apart, r.sides, r.pairs, r.count_sum, r.largest_count, r.used};
}

static Call *const calls[COUNT] = {ours, merging};

/* A link of this cost, added to the entries of all images that it parts. */
static void add_link(size_t n, uint64_t far, uint32_t cost, uint32_t *t) {
    for (size_t i = 0; i < n; i++)
        for (size_t j = 0; j < n; j++)
            if ((far >> i ^ far >> j) & 1) t[i * n + j] += cost;
}

/* Table k of a term: the links of one of a few random trees, of which some inner ones are left out, with other costs. */
static void term_table(size_t n, size_t k, uint32_t *t) {
    uint64_t links[125];
    uint32_t costs[125];
    size_t rows = 0;
    seed(1000 + k);
    uint32_t tree = dice((uint32_t)(1000 / (n - 3)));
    seed(7 + tree), random_tree(n, t);
    plain_exact_grafted(n, t, n * n, links, costs, 125, &rows);
    memset(t, 0, n * n * sizeof *t);
    seed(2000 + k);
    for (size_t i = 0; i < rows; i++) {
        size_t ones = (size_t)__builtin_popcountll(links[i]);
        int left_out = ones > 1 && ones < n - 1 && !dice(8);
        if (!left_out) add_link(n, links[i], 1 + dice(400), t);
    }
}

static void make_term(size_t n, Term *term) {
    static uint32_t t[4096];
    size_t end = 0;
    for (size_t k = 0; k < TABLES; k++) {
        term_table(n, k, t);
        end += kemotuiki_write_costs(k % 2, n, t, n * n, term->bytes + end, KEMOTUIKI_COST_BYTES).used;
        term->ends[k] = end;
    }
}

/* Stops unless both answer and leave the same, with all tables accepted. */
static void compare(size_t n, size_t tables) {
    static Left first;
    for (size_t i = 0; i < COUNT; i++) {
        memset(&left, 0, sizeof left);
        calls[i]();
        if (i == 0) first = left;
        if (!memcmp(&left, &first, sizeof left) && !left.answer.number && left.answer.accepted == tables && left.answer.used == used) continue;
        fprintf(stderr, "a term of %zu tables of %zu images: call %zu differs\n", tables, n, i);
        exit(1);
    }
}

static void race_reports(size_t n, size_t tables, const Term *term) {
    double us[COUNT];
    bytes = term->bytes;
    used = term->ends[tables - 1];
    compare(n, tables);
    race(COUNT, calls, us);
    if (printing)
        printf("| %zu | %zu | %zu | %zu | %.1f | %.1f | %.2f | %.2f |\n", n, tables, used, left.answer.sides, us[0], us[1], us[0] / us[1],
               us[0] / (double)tables);
}

void reports(int print) {
    static const size_t sizes[SIZES] = {9, 32, 64}, tables[] = {125, 250, TABLES};
    printing = print;
    if (printing) printf("\n%s", head);
    for (size_t k = 0; k < SIZES; k++) {
        if (!terms[k].ends[0]) make_term(sizes[k], &terms[k]);
        for (size_t i = 0; i < 3; i++) race_reports(sizes[k], tables[i], &terms[k]);
    }
}
