/*
 * Times the archive against plain.c, call by call, in one run: the two take turns. Both answers are compared first. Prints six
 * tables in Markdown: all calls on random trees, the measured reading on trees of every shape, both engines of the exact reading,
 * images that leave, term reports, and the reading of levels.
 */
#include <stdio.h>
#include <stdlib.h>
#include <string.h>

#include "engines.h"
#include "kemotuiki.h"
#include "levels.h"
#include "plain.h"
#include "race.h"
#include "replays.h"
#include "reports.h"
#include "shapes.h"
#include "tables.h"

enum { BATCH = 3 }; /* tables of a batch */

static size_t n, rows, plain_rows, stored_fewer;
static uint32_t tree[4096], other[4096], noisy[4096], back[4096], costs[125], plain_costs[125], out[64], plain_out[64];
static uint64_t fars[125], plain_fars[125], inner_side;
static uint32_t team[16 * 4096], shared_costs[125];
static uint64_t shared_fars[125];
/* The form that is written, read, or converted into from the other one; the tree's stored tables in both, and what is written anew. */
static size_t form, stored_costs[2], stored_links[2];
static uint8_t cost_bytes[2][KEMOTUIKI_COST_BYTES], link_bytes[2][KEMOTUIKI_LINK_BYTES], fewer_bytes[KEMOTUIKI_LINK_BYTES];
static uint8_t bytes[KEMOTUIKI_COST_BYTES], plain_bytes[KEMOTUIKI_COST_BYTES];
static uint32_t batch_ns[BATCH], batch_counts[BATCH], batch_costs[BATCH * 125];
static uint64_t batch_fars[BATCH * 125];
static uint8_t batch_bytes[BATCH * KEMOTUIKI_LINK_BYTES], plain_batch_bytes[BATCH * KEMOTUIKI_LINK_BYTES];
static size_t newick_length;
static char newick[KEMOTUIKI_NEWICK_BYTES], plain_newick[KEMOTUIKI_NEWICK_BYTES];
static uint64_t read_fars[125];
static uint32_t read_costs[125];
static volatile size_t sink;
static int printing;

static void ours_exact(void) { sink = kemotuiki_exact(n, tree, n * n, fars, 125, costs, 125).rows; }
static void c_exact(void) { plain_exact(n, tree, n * n, plain_fars, plain_costs, 125, &plain_rows); sink = plain_rows; }
static void c_exact_all(void) { plain_exact_all_fours(n, tree, n * n, plain_fars, plain_costs, 125, &plain_rows); sink = plain_rows; }
static void ours_grafted(void) { sink = kemotuiki_exact_grafted(n, tree, n * n, fars, 125, costs, 125).rows; }
static void c_grafted(void) { plain_exact_grafted(n, tree, n * n, plain_fars, plain_costs, 125, &plain_rows); sink = plain_rows; }
static void ours_measured(void) { sink = kemotuiki_measured(n, noisy, n * n, fars, 125, costs, 125).rows; }
static void c_measured(void) { plain_measured(n, noisy, n * n, plain_fars, plain_costs, 125, &plain_rows); sink = plain_rows; }
static void ours_index(void) { sink = kemotuiki_index(n, tree, n * n, inner_side).signed_index; }
static void c_index(void) { int64_t v = 0; plain_index(n, tree, n * n, inner_side, &v); sink = v; }
static void ours_order(void) { sink = kemotuiki_order(n, tree, n * n, 1, n, out, 64).images + out[1]; }
static void c_order(void) { plain_order(n, tree, n * n, 1, n, plain_out, 64); sink = n + plain_out[1]; }
static void ours_compare(void) { KemotuikiComparison r = kemotuiki_compare(n, tree, n * n, other, n * n); sink = r.inner_first + 1000 * r.count + 1000000 * r.over; }
static void c_compare(void) { size_t v[5] = {0}; plain_compare(n, tree, n * n, other, n * n, v); sink = v[0] + 1000 * v[3] + 1000000 * v[4]; }
static void ours_consensus(void) { sink = kemotuiki_consensus(n, 16, team, 16 * n * n, shared_fars, 125, shared_costs, 125).rows; }
static void c_consensus(void) { plain_consensus(n, 16, team, 16 * n * n, plain_fars, plain_costs, 125, &plain_rows); sink = plain_rows; }
static void ours_write_costs(void) { sink = kemotuiki_write_costs(form, n, tree, n * n, bytes, sizeof bytes).used; }
static void c_write_costs(void) { size_t u = 0; plain_write_costs(form, n, tree, n * n, plain_bytes, sizeof plain_bytes, &u); sink = u; }
static void ours_read_costs(void) { sink = kemotuiki_read_costs(cost_bytes[form], stored_costs[form], 0, back, 4096).used; }
static void c_read_costs(void) { size_t m = 0, u = 0; plain_read_costs(cost_bytes[form], stored_costs[form], 0, back, 4096, &m, &u); sink = u; }
static void ours_convert_costs(void) { sink = kemotuiki_convert_costs(form, cost_bytes[!form], stored_costs[!form], bytes, sizeof bytes).used; }
static void c_convert_costs(void) { size_t u = 0; plain_convert_costs(form, cost_bytes[!form], stored_costs[!form], plain_bytes, sizeof plain_bytes, &u); sink = u; }
static void ours_write_links(void) { sink = kemotuiki_write_links(form, n, rows, fars, rows, costs, rows, bytes, sizeof bytes).used; }
static void c_write_links(void) { size_t u = 0; plain_write_links(form, n, rows, fars, costs, plain_bytes, sizeof plain_bytes, &u); sink = u; }
static void ours_write_batch(void) {
    size_t all = BATCH * rows;
    sink = kemotuiki_write_batch(form, batch_ns, BATCH, batch_counts, BATCH, batch_fars, all, batch_costs, all, batch_bytes, sizeof batch_bytes).used;
}
static void c_write_batch(void) {
    size_t all = BATCH * rows, u = 0;
    plain_write_batch(form, batch_ns, batch_counts, BATCH, batch_fars, all, batch_costs, all, plain_batch_bytes, sizeof plain_batch_bytes, &u);
    sink = u;
}
static void ours_read_links(void) { sink = kemotuiki_read_links(link_bytes[form], stored_links[form], 0, plain_fars, 125, plain_costs, 125).used; }
static void c_read_links(void) { size_t m = 0, k = 0, u = 0; plain_read_links(link_bytes[form], stored_links[form], 0, plain_fars, plain_costs, 125, &m, &k, &u); sink = u; }
static void ours_convert_links(void) { sink = kemotuiki_convert_links(form, link_bytes[!form], stored_links[!form], bytes, sizeof bytes).used; }
static void c_convert_links(void) { size_t u = 0; plain_convert_links(form, link_bytes[!form], stored_links[!form], plain_bytes, sizeof plain_bytes, &u); sink = u; }

static void ours_choice(void) { KemotuikiChoice r = kemotuiki_choice(fewer_bytes, stored_fewer, link_bytes[form], stored_links[form]); sink = r.chosen + 10 * r.used; }
static void c_choice(void) { size_t k = 0, u = 0; plain_choice(fewer_bytes, stored_fewer, link_bytes[form], stored_links[form], &k, &u); sink = k + 10 * u; }

static void ours_write_newick(void) { sink = kemotuiki_write_newick(n, rows, fars, rows, costs, rows, newick, sizeof newick).used; }
static void c_write_newick(void) { size_t u = 0; plain_write_newick(n, rows, fars, costs, plain_newick, sizeof plain_newick, &u); sink = u; }
static void ours_read_newick(void) { KemotuikiTree r = kemotuiki_read_newick(newick, newick_length, read_fars, 125, read_costs, 125); sink = r.n + 1000 * r.rows; }
static void c_read_newick(void) { size_t m = 0, k = 0, p = 0; plain_read_newick(newick, newick_length, plain_fars, plain_costs, 125, &m, &k, &p); sink = m + 1000 * k; }

/* Sixteen tables of one tree, with its costs once, twice or three times, so that all rows are shared and none is the last table's. */
static void fill_team(void) {
    for (size_t k = 0; k < 16; k++)
        for (size_t i = 0; i < n * n; i++) team[k * n * n + i] = tree[i] * (1 + (k + 2) % 3);
}

/* The rows of one tree, once for each table of a batch. */
static void fill_batch(void) {
    for (size_t k = 0; k < BATCH; k++) {
        batch_ns[k] = (uint32_t)n, batch_counts[k] = (uint32_t)rows;
        memcpy(batch_fars + k * rows, fars, rows * 8), memcpy(batch_costs + k * rows, costs, rows * 4);
    }
}

/* The same tree with every second inner link left out, stored in the old form: what the whole tree is chosen against. */
static void store_fewer(void) {
    size_t kept = 0, inner = 0;
    for (size_t i = 0; i < rows; i++) {
        int ones = __builtin_popcountll(fars[i]), own = ones == 1 || ones == (int)n - 1;
        if (!own && inner++ % 2) continue;
        plain_fars[kept] = fars[i], plain_costs[kept++] = costs[i];
    }
    stored_fewer = kemotuiki_write_links(KEMOTUIKI_OLD_FORM, n, kept, plain_fars, kept, plain_costs, kept, fewer_bytes, sizeof fewer_bytes).used;
}

static void race_both(const char *name, Call *ours, Call *plain) {
    Call *calls[] = {ours, plain};
    double us[2];
    ours();
    size_t answer = sink;
    plain();
    if (sink != answer) {
        fprintf(stderr, "%s at %zu: %zu and %zu\n", name, n, answer, (size_t)sink);
        exit(1);
    }
    race(2, calls, us);
    if (printing) printf("| %s | %zu | %.1f | %.1f | %.2f |\n", name, n, us[0], us[1], us[0] / us[1]);
}

static int rows_differ(void) { return plain_rows != rows || memcmp(fars, plain_fars, rows * 8) || memcmp(costs, plain_costs, rows * 4); }

/* What both wrote last, whose length is in the sink: status 1 if it differs; else it is kept. */
static int keep(uint8_t *kept, size_t *length) {
    if (memcmp(bytes, plain_bytes, sink)) return 1;
    memcpy(kept, bytes, sink);
    *length = sink;
    return 0;
}

/* The calls that write and read stored tables, in each form; then each way between the forms, which must give the same bytes again. */
static int stored_forms(void) {
    static const char *const names[2][8] = {
        {"write_costs", "read_costs", "write_links", "write_batch of 3 tables", "read_links", "choice", "convert_costs, new to old", "convert_links, new to old"},
        {"write_costs, new form", "read_costs, new form", "write_links, new form", "write_batch of 3 tables, new form", "read_links, new form",
         "choice, old and new", "convert_costs, old to new", "convert_links, old to new"}};
    fill_batch();
    for (form = 0; form < 2; form++) {
        race_both(names[form][0], ours_write_costs, c_write_costs);
        if (keep(cost_bytes[form], &stored_costs[form])) return 1;
        race_both(names[form][1], ours_read_costs, c_read_costs);
        if (memcmp(back, tree, n * n * 4)) return 1;
        race_both(names[form][2], ours_write_links, c_write_links);
        if (keep(link_bytes[form], &stored_links[form])) return 1;
        race_both(names[form][3], ours_write_batch, c_write_batch);
        if (memcmp(batch_bytes, plain_batch_bytes, sink)) return 1;
        race_both(names[form][4], ours_read_links, c_read_links);
        store_fewer();
        race_both(names[form][5], ours_choice, c_choice);
    }
    for (form = 0; form < 2; form++) {
        race_both(names[form][6], ours_convert_costs, c_convert_costs);
        if (sink != stored_costs[form] || memcmp(bytes, plain_bytes, sink) || memcmp(bytes, cost_bytes[form], sink)) return 1;
        race_both(names[form][7], ours_convert_links, c_convert_links);
        if (sink != stored_links[form] || memcmp(bytes, plain_bytes, sink) || memcmp(bytes, link_bytes[form], sink)) return 1;
    }
    return 0;
}

/* The tree's Newick text, written and read back. */
static int newick_text(void) {
    race_both("write_newick", ours_write_newick, c_write_newick);
    newick_length = sink;
    if (memcmp(newick, plain_newick, newick_length)) return 1;
    race_both("read_newick", ours_read_newick, c_read_newick);
    return memcmp(read_fars, fars, rows * 8) || memcmp(read_costs, costs, rows * 4) || memcmp(plain_fars, fars, rows * 8) || memcmp(plain_costs, costs, rows * 4);
}

/* One pass over all calls; status 1 if two answers differ. */
static int all_calls(void) {
    static const size_t sizes[] = {9, 16, 32, 64};
    for (size_t k = 0; k < 4; k++) {
        n = sizes[k];
        seed(7), random_tree(n, tree);
        seed(11), random_tree(n, other);
        memcpy(noisy, tree, sizeof noisy);
        raise(n, noisy);
        race_both("exact", ours_exact, c_exact);
        rows = kemotuiki_exact(n, tree, n * n, fars, 125, costs, 125).rows;
        if (rows_differ()) return 1;
        inner_side = fars[rows / 2];
        race_both("exact, C over all fours", ours_exact, c_exact_all);
        race_both("exact, grafted", ours_grafted, c_grafted);
        if (rows_differ()) return 1;
        race_both("measured", ours_measured, c_measured);
        rows = kemotuiki_exact(n, tree, n * n, fars, 125, costs, 125).rows;
        race_both("index", ours_index, c_index);
        race_both("order", ours_order, c_order);
        if (memcmp(out, plain_out, n * 4)) return 1;
        race_both("compare", ours_compare, c_compare);
        if (n == 9 || n == 64) {
            fill_team();
            race_both("consensus of 16 tables", ours_consensus, c_consensus);
            if (memcmp(shared_fars, plain_fars, plain_rows * 8) || memcmp(shared_costs, plain_costs, plain_rows * 4)) return 1;
        }
        if (stored_forms() || newick_text()) return 1;
    }
    return 0;
}

int main(void) {
    for (int pass = 0; pass < PASSES; pass++) {
        begin_pass();
        printing = pass == PASSES - 1;
        if (printing) printf("| Call | n | archive, µs | C, µs | archive / C |\n|---|---|---|---|---|\n");
        if (all_calls()) return 1;
        shapes(printing);
        engines(printing);
        replays(printing);
        reports(printing);
        levels(printing);
    }
    return 0;
}
