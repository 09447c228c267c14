/* Sixty-four images on a line of switches, read exactly by both engines; once more with one entry too high, and with a link that nobody
 * timed: the same rows, and the same refusals. */
#include <kemotuiki.h>
#include <stdio.h>
#include <string.h>

enum { N = KEMOTUIKI_IMAGES, ROWS = KEMOTUIKI_ROWS };

static uint32_t table[N * N], costs[2][ROWS];
static uint64_t fars[2][ROWS];

/* Both readings, and what they say together. */
static void read_both(void) {
    char text[2][KEMOTUIKI_TEXT_BYTES];
    KemotuikiRows r = kemotuiki_exact(N, table, N * N, fars[0], ROWS, costs[0], ROWS);
    KemotuikiRows s = kemotuiki_exact_grafted(N, table, N * N, fars[1], ROWS, costs[1], ROWS);
    kemotuiki_refusal_text(KEMOTUIKI_HEAD(r), text[0], sizeof text[0]);
    kemotuiki_refusal_text(KEMOTUIKI_HEAD(s), text[1], sizeof text[1]);
    int same = !strcmp(text[0], text[1]) && r.rows == s.rows && !memcmp(fars[0], fars[1], sizeof fars[0])
               && !memcmp(costs[0], costs[1], sizeof costs[0]);
    printf("%s, %zu rows, %s\n", text[1], s.rows, same ? "the same by both engines" : "the engines differ");
}

int main(void) {
    for (size_t i = 0; i < N; i++)
        for (size_t j = 0; j < N; j++) table[i * N + j] = i == j ? 0 : 2 + (uint32_t)(i < j ? j - i : i - j);
    read_both();
    table[61 * N + 63]++, table[63 * N + 61]++;
    read_both();
    table[4 * N + 6] = table[6 * N + 4] = 0;
    read_both();
    return 0;
}
