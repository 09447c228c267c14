/* A term of five weeks: each week the link costs of six images are stored behind those of the weeks before, and at its end there is one
 * report over all of them. In week 3 a cost was measured wrongly, so that no wiring gives the table; in week 4 images 4 and 5 stand in
 * each other's racks; in week 5 the way to the third rack is slow, and needs the new form. Means are printed as two whole numbers. Then
 * the last byte is lost: the last table is refused, and the report of the weeks before it is still there. */
#include <kemotuiki.h>
#include <stdio.h>

enum { N = 6, WEEKS = 5, ROOM = KEMOTUIKI_REPORT_SIDES };

static uint64_t fars[ROOM], sums[ROOM];
static uint32_t trees[ROOM];

/* Two images in each of three racks, each one away from its switch; the ways up from the switches cost something else each week. */
static void measure(int week, uint32_t *table) {
    static const uint32_t up[WEEKS][3] = {{5, 7, 9}, {5, 8, 9}, {5, 7, 9}, {5, 7, 9}, {5, 7, 1500000}};
    static const int racks[N] = {0, 0, 1, 1, 2, 2}, exchanged[N] = {0, 0, 1, 2, 1, 2};
    const int *rack = week == 4 ? exchanged : racks;
    for (int i = 0; i < N; i++)
        for (int j = 0; j < N; j++)
            table[i * N + j] = i == j ? 0 : 2 + (rack[i] == rack[j] ? 0 : up[week - 1][rack[i]] + up[week - 1][rack[j]]);
    if (week == 3) table[0 * N + 2] = table[2 * N + 0] += 1;
}

static void print_report(KemotuikiReport r) {
    printf("%zu tables of %zu images in %zu bytes: %zu with a tree, %zu without\n", r.tables, r.images, r.used, r.accepted, r.apart);
    for (size_t k = 0; k < r.sides; k++)
        printf("  far side %llu: in %u of %zu trees, mean doubled cost %llu/%u\n", (unsigned long long)fars[k], trees[k], r.accepted,
               (unsigned long long)sums[k], trees[k]);
    printf("  %zu pairs: mean Robinson-Foulds count %zu/%zu, the largest %zu\n", r.pairs, r.count_sum, r.pairs, r.largest_count);
}

int main(void) {
    uint8_t bytes[WEEKS * KEMOTUIKI_COST_BYTES];
    uint32_t table[N * N];
    char why[KEMOTUIKI_TEXT_BYTES];
    size_t count = 0;
    for (int week = 1; week <= WEEKS; week++) {
        measure(week, table);
        KemotuikiBytes stored = kemotuiki_write_costs(KEMOTUIKI_OLD_FORM, N, table, N * N, bytes + count, sizeof bytes - count);
        if (stored.number == KEMOTUIKI_ABOVE_OLD_LIMITS)
            stored = kemotuiki_write_costs(KEMOTUIKI_NEW_FORM, N, table, N * N, bytes + count, sizeof bytes - count);
        count += stored.used;
    }
    KemotuikiReport term = kemotuiki_report(bytes, count, fars, ROOM, trees, ROOM, sums, ROOM);
    if (term.number) return 1;
    print_report(term);

    term = kemotuiki_report(bytes, count - 1, fars, ROOM, trees, ROOM, sums, ROOM);
    kemotuiki_refusal_text(KEMOTUIKI_HEAD(term), why, sizeof why);
    printf("%s\n", why);
    print_report(term);
    return 0;
}
