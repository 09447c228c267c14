/*
 * Nine images on an uneven network form a team. Each has its own copy of the table of link costs, reads it exactly, and the trees
 * are compared before the team forms: one copy has two images exchanged, and one was measured and is a little off. Then the links
 * that all trees of a team hold are found.
 */
#include <stdio.h>
#include <stdlib.h>
#include <string.h>

#include "kemotuiki.h"

/* ROOM is enough for the rows of any tree over N images. */
enum { N = 9, ROOM = 2 * N - 3 };

static uint32_t tables[N][N * N];

/* Cost from image i to the middle, by switch: the racks hold images 1 to 4, 5 to 7, 8 and 9; 3 and 4 share a switch of their own. */
static uint32_t cost(int i, int j) {
    static const uint32_t own[N] = {1, 2, 1, 3, 2, 2, 1, 1, 4};
    static const int rack[N] = {0, 0, 0, 0, 1, 1, 1, 2, 2};
    static const uint32_t up[3] = {10, 7, 20};
    int pair_i = i == 2 || i == 3, pair_j = j == 2 || j == 3;
    if (i == j) return 0;
    return own[i] + own[j] + (rack[i] != rack[j] ? up[rack[i]] + up[rack[j]] : 0) + (pair_i != pair_j ? 5 : 0);
}

static void fill(void) {
    for (int k = 0; k < N; k++)
        for (int i = 0; i < N; i++)
            for (int j = 0; j < N; j++) {
                int a = i, b = j;
                /* image 7 has images 4 and 5 on each other's ports */
                if (k == 6) {
                    a = i == 3 ? 4 : i == 4 ? 3 : i;
                    b = j == 3 ? 4 : j == 4 ? 3 : j;
                }
                tables[k][i * N + j] = cost(a, b);
            }
    /* image 9 measured: two entries are off by one */
    tables[8][0 * N + 4] = tables[8][4 * N + 0] += 1;
    tables[8][1 * N + 7] = tables[8][7 * N + 1] -= 1;
}

/* What an answer says, as text. It stands until the next one. */
#define TEXT(r) text_of(KEMOTUIKI_HEAD(r))

static const char *text_of(size_t number, size_t table, size_t a, size_t b, size_t c, size_t d) {
    static char text[KEMOTUIKI_TEXT_BYTES];
    kemotuiki_refusal_text(number, table, a, b, c, d, text, sizeof text);
    return text;
}

/* Leaves the program where a call that this example counts on was refused: its values are worth nothing then. */
#define NEED(r) \
    do { \
        if ((r).number) { \
            fprintf(stderr, "%s\n", TEXT(r)); \
            exit(1); \
        } \
    } while (0)

static void rows(size_t count, const uint64_t *fars, const uint32_t *costs) {
    for (size_t i = 0; i < count; i++) printf("  %llu:%u", (unsigned long long)fars[i], costs[i]);
    printf("\n");
}

static void numbers(const char *what, size_t count, const uint32_t *out) {
    printf("%s", what);
    for (size_t i = 0; i < count; i++) printf(" %u", out[i]);
    printf("\n");
}

/* The link table of the image's tree, into slices with room for any; the row count. */
static size_t tree_of(int image, uint64_t *fars, uint32_t *costs) {
    KemotuikiRows r = kemotuiki_exact(N, tables[image - 1], N * N, fars, ROOM, costs, ROOM);
    NEED(r);
    return r.rows;
}

/* The same of the measured reading. */
static size_t measured_tree_of(int image, uint64_t *fars, uint32_t *costs) {
    KemotuikiRows r = kemotuiki_measured(N, tables[image - 1], N * N, fars, ROOM, costs, ROOM);
    NEED(r);
    return r.rows;
}

/* The old stored form of a link table, into bytes; how many. Every version reads it, and these costs are far below its limits. */
static size_t stored(size_t count, const uint64_t *fars, const uint32_t *costs, uint8_t *bytes, size_t room) {
    KemotuikiBytes r = kemotuiki_write_links(KEMOTUIKI_OLD_FORM, N, count, fars, count, costs, count, bytes, room);
    NEED(r);
    return r.used;
}

static void read_exactly(void) {
    uint64_t fars[ROOM];
    uint32_t costs[ROOM];
    printf("each image reads its table exactly\n");
    for (int k = 0; k < N; k++) {
        KemotuikiRows r = kemotuiki_exact(N, tables[k], N * N, fars, ROOM, costs, ROOM);
        if (r.number) printf("image %d: %s\n", k + 1, TEXT(r));
        else printf("image %d: %zu rows\n", k + 1, r.rows);
    }
    printf("image 9 reads what it measured\n");
    rows(measured_tree_of(9, fars, costs), fars, costs);
}

static void compare_all(void) {
    printf("trees compared with image 1 before the team forms\n");
    for (int k = 1; k < N; k++) {
        KemotuikiComparison r = kemotuiki_compare(N, tables[0], N * N, tables[k], N * N);
        printf("image %d: ", k + 1);
        if (r.number) printf("%s\n", TEXT(r));
        else if (r.count) printf("differs, %zu of %zu; %zu in common\n", r.count, r.over, r.common);
        else printf("the same tree\n");
    }
}

/* The links that all nine share, and those of the eight images that have a tree. Their tables stand joined as they are. */
static void share(void) {
    uint64_t fars[ROOM];
    uint32_t costs[ROOM], out[ROOM];
    KemotuikiRows r = kemotuiki_consensus(N, N, tables[0], N * N * N, fars, ROOM, costs, ROOM);
    printf("links that all nine share: ");
    if (r.number) printf("%s\n", TEXT(r));
    else printf("%zu rows\n", r.rows);
    r = kemotuiki_consensus(N, 8, tables[0], 8 * N * N, fars, ROOM, costs, ROOM);
    NEED(r);
    printf("links that images 1 to 8 share, each at its smallest cost\n");
    rows(r.rows, fars, costs);
    KemotuikiRows route = kemotuiki_route(N, r.rows, fars, r.rows, costs, r.rows, 8, out, ROOM);
    NEED(route);
    numbers("route of 8 over them:", route.rows, out);
}

/* Image 1's tree, its routes and upper rows. */
static void use_tree(void) {
    uint64_t fars[ROOM];
    uint32_t costs[ROOM], out[ROOM];
    size_t count = tree_of(1, fars, costs);
    printf("image 1's tree\n");
    rows(count, fars, costs);
    KemotuikiPath path = kemotuiki_path(N, count, fars, count, costs, count, 3, 8);
    NEED(path);
    printf("path cost of 3 and 8: %zu\n", path.cost);
    KemotuikiRows route = kemotuiki_route(N, count, fars, count, costs, count, 3, out, ROOM);
    NEED(route);
    numbers("route of 3:", route.rows, out);
    KemotuikiRows upper = kemotuiki_upper_rows(N, count, fars, count, costs, count, out, ROOM);
    NEED(upper);
    numbers("upper rows:", upper.rows, out);
}

/* The far end, over which the ring of the listing closes: the other image with the greatest cost from image 1, the lowest on a tie. */
static size_t far_end(const uint32_t *table) {
    size_t last = 2;
    for (size_t i = 3; i <= N; i++)
        if (table[i - 1] > table[last - 1]) last = i;
    return last;
}

/* What needs the cost table and no tree: the order around it, and how strongly a table supports a division, or how badly it fails. */
static void use_table(void) {
    uint32_t out[N];
    size_t last = far_end(tables[0]);
    printf("farthest from image 1: image %zu\n", last);
    KemotuikiOrder order = kemotuiki_order(N, tables[0], N * N, 1, last, out, N);
    NEED(order);
    numbers("order from 1 to there:", order.images, out);
    KemotuikiIndex index = kemotuiki_index(N, tables[0], N * N, 12), as_7 = kemotuiki_index(N, tables[6], N * N, 12);
    NEED(index);
    NEED(as_7);
    printf("index of 3 and 4 against the others: %lld\n", (long long)index.signed_index);
    printf("and as image 7 has it: %lld\n", (long long)as_7.signed_index);
}

/* The cost table and, behind it, the link table, in one buffer; then both read back. */
static void store(void) {
    uint64_t fars[ROOM];
    uint32_t costs[ROOM], back[N * N];
    uint8_t bytes[512];
    size_t count = tree_of(1, fars, costs);
    KemotuikiBytes front = kemotuiki_write_costs(KEMOTUIKI_OLD_FORM, N, tables[0], N * N, bytes, sizeof bytes);
    NEED(front);
    size_t more = stored(count, fars, costs, bytes + front.used, sizeof bytes - front.used);
    printf("stored: %zu bytes of costs, %zu of links\n", front.used, more);
    KemotuikiCosts r = kemotuiki_read_costs(bytes, front.used + more, 0, back, N * N);
    NEED(r);
    printf("read back: %s\n", memcmp(back, tables[0], sizeof back) ? "not the same" : "the same costs");
    KemotuikiLinks behind = kemotuiki_read_links(bytes, front.used + more, 8 * r.used, fars, ROOM, costs, ROOM);
    NEED(behind);
    printf("read back: %zu images, %zu rows, %zu bytes\n", behind.n, behind.rows, behind.used);
}

/* Image 1's tree against the measured one and against image 7's, each stored in a buffer: which includes the other? */
static void choose(void) {
    uint64_t fars[ROOM];
    uint32_t costs[ROOM];
    uint8_t mine[256], theirs[256];
    size_t used = stored(tree_of(1, fars, costs), fars, costs, mine, sizeof mine);
    size_t other = stored(measured_tree_of(9, fars, costs), fars, costs, theirs, sizeof theirs);
    KemotuikiChoice r = kemotuiki_choice(mine, used, theirs, other);
    NEED(r);
    printf("image 1's tree and the measured one: table %zu, %zu bytes\n", r.chosen, r.used);
    other = stored(tree_of(7, fars, costs), fars, costs, theirs, sizeof theirs);
    r = kemotuiki_choice(mine, used, theirs, other);
    printf("image 1's tree and image 7's: %s\n", TEXT(r));
}

/* Both trees in one batch: the rows of image 7's stand behind those of image 1's. */
static void write_both(void) {
    uint64_t fars[2 * ROOM];
    uint32_t costs[2 * ROOM], counts[2], images[2] = {N, N};
    uint8_t bytes[512];
    counts[0] = (uint32_t)tree_of(1, fars, costs);
    counts[1] = (uint32_t)tree_of(7, fars + counts[0], costs + counts[0]);
    size_t both = counts[0] + counts[1];
    KemotuikiBytes r = kemotuiki_write_batch(KEMOTUIKI_OLD_FORM, images, 2, counts, 2, fars, both, costs, both, bytes, sizeof bytes);
    NEED(r);
    printf("both in one batch: %zu bytes\n", r.used);
}

int main(void) {
    fill();
    read_exactly();
    compare_all();
    share();
    use_tree();
    use_table();
    store();
    choose();
    write_both();
    return 0;
}
