/* Two of nine images fail during a run: image 4, and then image 1. The rows and the routes of those that are left, each with the number
 * that it had before; then a third event with a number that no image has any more: it is refused, and the rows before it are still there. */
#include <kemotuiki.h>
#include <stdio.h>
#include <string.h>

enum { N = 9, ROOM = 2 * N - 3 };

int main(void) {
    static const uint32_t table[N * N] = {
        0,  3,  7,  9,  20, 20, 19, 32, 35,
        3,  0,  8,  10, 21, 21, 20, 33, 36,
        7,  8,  0,  4,  25, 25, 24, 37, 40,
        9,  10, 4,  0,  27, 27, 26, 39, 42,
        20, 21, 25, 27, 0,  4,  3,  30, 33,
        20, 21, 25, 27, 4,  0,  3,  30, 33,
        19, 20, 24, 26, 3,  3,  0,  29, 32,
        32, 33, 37, 39, 30, 30, 29, 0,  5,
        35, 36, 40, 42, 33, 33, 32, 5,  0,
    };
    static const uint8_t events[] = {4, 1, 9};
    uint64_t fars[ROOM], fars_before[ROOM];
    uint32_t costs[ROOM], costs_before[ROOM], route[ROOM];
    size_t before[N] = {1, 2, 3, 4, 5, 6, 7, 8, 9};
    char why[KEMOTUIKI_TEXT_BYTES];
    KemotuikiReplay left = kemotuiki_replay(N, table, N * N, events, 2, fars, ROOM, costs, ROOM);
    if (left.number) {
        kemotuiki_refusal_text(KEMOTUIKI_HEAD(left), why, sizeof why);
        fprintf(stderr, "event %zu: %s\n", left.event, why);
        return 1;
    }
    printf("images 4 and 1 leave: %zu images, %zu rows\n", left.images, left.rows);
    for (size_t k = 0; k < left.rows; k++) printf("  %llu:%u", (unsigned long long)fars[k], costs[k]);
    printf("\n");

    /* Numbers above the one that leaves drop by one. */
    for (size_t k = 0; k < 2; k++) memmove(before + events[k] - 1, before + events[k], (N - k - events[k]) * sizeof *before);
    for (size_t i = 1; i <= left.images; i++) {
        KemotuikiRows r = kemotuiki_route(left.images, left.rows, fars, left.rows, costs, left.rows, i, route, ROOM);
        printf("image %zu, before %zu, route:", i, before[i - 1]);
        for (size_t k = 0; k < r.rows; k++) printf(" %u", route[k]);
        printf("\n");
    }

    memcpy(fars_before, fars, sizeof fars);
    memcpy(costs_before, costs, sizeof costs);
    left = kemotuiki_replay(N, table, N * N, events, 3, fars, ROOM, costs, ROOM);
    kemotuiki_refusal_text(KEMOTUIKI_HEAD(left), why, sizeof why);
    int same = !memcmp(fars, fars_before, left.rows * sizeof *fars) && !memcmp(costs, costs_before, left.rows * sizeof *costs);
    printf("event %zu, image %u: %s\n", left.event, events[left.event - 1], why);
    printf("still there: %zu images, %zu rows, %s\n", left.images, left.rows, same ? "the same" : "not the same");
    return 0;
}
