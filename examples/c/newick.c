/* The tree of nine images as Newick text, which tools that draw trees take; the text read back, which gives the same rows; and what is
 * said of a text in which two siblings have changed places. */
#include <kemotuiki.h>
#include <stdio.h>
#include <string.h>

enum { N = 9, ROOM = 2 * N - 3 };

int main(void) {
    static const uint32_t table[N * N] = {
        0,  3,  7,  9,  20, 20, 19, 32, 35,
        3,  0,  8,  10, 21, 21, 20, 33, 36,
        7,  8,  0,  4,  25, 25, 24, 37, 40,
        9,  10, 4,  0,  27, 27, 26, 39, 42,
        20, 21, 25, 27, 0,  4,  3,  30, 33,
        20, 21, 25, 27, 4,  0,  3,  30, 33,
        19, 20, 24, 26, 3,  3,  0,  29, 32,
        32, 33, 37, 39, 30, 30, 29, 0,  5,
        35, 36, 40, 42, 33, 33, 32, 5,  0,
    };
    static const char swapped[] = "(1:2,3:2,2:4,4:6);";
    uint64_t fars[ROOM], fars_read[ROOM];
    uint32_t costs[ROOM], costs_read[ROOM];
    char text[KEMOTUIKI_NEWICK_BYTES], why[KEMOTUIKI_TEXT_BYTES];
    KemotuikiRows tree = kemotuiki_exact_grafted(N, table, N * N, fars, ROOM, costs, ROOM);
    KemotuikiBytes written = kemotuiki_write_newick(N, tree.rows, fars, tree.rows, costs, tree.rows, text, sizeof text);
    if (written.number) {
        kemotuiki_refusal_text(KEMOTUIKI_HEAD(written), why, sizeof why);
        fprintf(stderr, "%s\n", why);
        return 1;
    }
    printf("%.*s\n", (int)written.used, text);

    KemotuikiTree back = kemotuiki_read_newick(text, written.used, fars_read, ROOM, costs_read, ROOM);
    int same = !back.number && back.n == N && back.rows == tree.rows && !memcmp(fars_read, fars, tree.rows * sizeof *fars)
               && !memcmp(costs_read, costs, tree.rows * sizeof *costs);
    printf("%zu bytes, and read back: %zu images, %zu rows, %s\n", written.used, back.n, back.rows, same ? "the same" : "not the same");

    back = kemotuiki_read_newick(swapped, strlen(swapped), fars_read, ROOM, costs_read, ROOM);
    kemotuiki_refusal_text(KEMOTUIKI_HEAD(back), why, sizeof why);
    printf("%s %s\n", swapped, why);
    return 0;
}
