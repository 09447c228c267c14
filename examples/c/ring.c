/* A ring for a barrier. Twelve images are dealt out to three boards, 1 to the first, 2 to the second, 3 to the third, 4 to the first
 * again; a message costs 2 within a board and 20 between two. In the order around the tree each board is one run, and no ring costs
 * less. From timings that are off by 1 each board still is one run. On a line such timings may do harm, 4 for each image but three. */
#include <kemotuiki.h>
#include <stdio.h>
#include <stdlib.h>

enum { N = 12 };

static uint32_t wired[N * N], timed[N * N];

/* The entry of images i and j in both tables, both ways; its timing is off by so much. */
static void put(int i, int j, int cost, int off) {
    wired[(i - 1) * N + j - 1] = wired[(j - 1) * N + i - 1] = (uint32_t)cost;
    timed[(i - 1) * N + j - 1] = timed[(j - 1) * N + i - 1] = (uint32_t)(cost + off);
}

/* A ring, and what it costs as the images are wired. */
static void say(const char *name, const uint32_t *ring) {
    uint32_t sum = 0;
    printf("%s", name);
    for (int i = 0; i < N; i++) {
        printf(" %u", (unsigned)ring[i]);
        sum += wired[(ring[i] - 1) * N + ring[(i + 1) % N] - 1];
    }
    printf(" costs %u\n", (unsigned)sum);
}

/* The order of t from first to last. */
static void around(const uint32_t *t, size_t first, size_t last, uint32_t *ring) {
    char text[KEMOTUIKI_TEXT_BYTES];
    KemotuikiOrder r = kemotuiki_order(N, t, N * N, first, last, ring, N);
    if (r.number) {
        kemotuiki_refusal_text(KEMOTUIKI_HEAD(r), text, sizeof text);
        fprintf(stderr, "%s\n", text);
        exit(1);
    }
}

int main(void) {
    uint32_t ring[N];
    for (int i = 1; i <= N; i++)
        for (int j = i + 1; j <= N; j++) put(i, j, (j - i) % 3 ? 20 : 2, (2 * i + j + i * j) % 3 - 1);
    for (int i = 0; i < N; i++) ring[i] = (uint32_t)i + 1;
    say("by number", ring);
    around(wired, 1, 2, ring);
    say("order", ring);
    around(timed, 1, 2, ring);
    say("order by timings", ring);

    /* Ten images at the places 1 to 10 of a line, image 11 at the place 1 too, and image 12 at 10. */
    const int place[N] = {1, 2, 3, 4, 5, 6, 7, 8, 9, 10, 1, 10};
    for (int i = 1; i <= N; i++)
        for (int j = i + 1; j <= N; j++) put(i, j, 2 + 2 * abs(place[i - 1] - place[j - 1]), i <= 10 && j > 10 ? 1 : -1);
    around(timed, 12, 1, ring);
    say("line, order by timings", ring);
    uint32_t first = ring[0];
    ring[0] = ring[1], ring[1] = first;
    say("line, two exchanged", ring);
    return 0;
}
