/*
 * A room that is wired in levels: its groups with their heights, and beside each the link of the exact tree that has it on one side;
 * then what is said of the same room with one entry wrong.
 */
#include <kemotuiki.h>
#include <stdio.h>
#include <stdlib.h>

enum { N = 6 };

/* 1 and 2 share a rack, 3 stands beside it, 4 and 5 share another, and 6 is in the next room. */
static uint32_t table[N * N] = {0, 2, 4, 10, 10, 16,    2, 0, 4, 10, 10, 16,    4, 4, 0, 10, 10, 16,
                                10, 10, 10, 0, 2, 16,   10, 10, 10, 2, 0, 16,   16, 16, 16, 16, 16, 0};
static uint64_t members[KEMOTUIKI_GROUPS], fars[KEMOTUIKI_ROWS];
static uint32_t heights[KEMOTUIKI_GROUPS], costs[KEMOTUIKI_ROWS];

static void stop(const char *text) {
    fprintf(stderr, "%s\n", text);
    exit(1);
}

/* A group with image 1 is the near side of its link, which is named by the other images; any other group is a far side. */
static void print_link(uint64_t group, size_t rows) {
    uint64_t all = ((uint64_t)1 << N) - 1, far = group & 1 ? all - group : group;
    size_t row = 0;
    while (row < rows && fars[row] != far) row++;
    if (row == rows) stop("no link has this group on one side");
    printf(", %s side of link %llu of cost %u", group & 1 ? "near" : "far", (unsigned long long)far, costs[row]);
}

int main(void) {
    char text[KEMOTUIKI_TEXT_BYTES];
    KemotuikiLevels r = kemotuiki_levels(N, table, N * N, members, KEMOTUIKI_GROUPS, heights, KEMOTUIKI_GROUPS);
    KemotuikiRows tree = kemotuiki_exact(N, table, N * N, fars, KEMOTUIKI_ROWS, costs, KEMOTUIKI_ROWS);
    if (r.number || tree.number) stop("refused");
    for (size_t k = 0; k < r.groups; k++) {
        printf("group %llu height %u: images", (unsigned long long)members[k], heights[k]);
        for (int i = 1; i <= N; i++)
            if (members[k] >> (i - 1) & 1) printf(" %d", i);
        if (k + 1 < r.groups) print_link(members[k], tree.rows);
        printf("\n");
    }
    table[1 * N + 3] = table[3 * N + 1] = 9;
    r = kemotuiki_levels(N, table, N * N, members, KEMOTUIKI_GROUPS, heights, KEMOTUIKI_GROUPS);
    kemotuiki_refusal_text(KEMOTUIKI_HEAD(r), text, sizeof text);
    printf("with 9 for images 2 and 4: %s\n", text);
    return 0;
}
