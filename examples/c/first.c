/* Four images and their link costs: the rows of the tree, far side and doubled cost, or why there is none. */
#include <kemotuiki.h>
#include <stdio.h>

int main(void) {
    const uint32_t table[16] = {0, 2, 4, 4,  2, 0, 4, 4,  4, 4, 0, 2,  4, 4, 2, 0};
    uint64_t fars[KEMOTUIKI_ROWS];
    uint32_t costs[KEMOTUIKI_ROWS];
    char text[KEMOTUIKI_TEXT_BYTES];
    KemotuikiRows r = kemotuiki_exact(4, table, 16, fars, KEMOTUIKI_ROWS, costs, KEMOTUIKI_ROWS);
    if (r.number) {
        kemotuiki_refusal_text(KEMOTUIKI_HEAD(r), text, sizeof text);
        fprintf(stderr, "%s\n", text);
        return 1;
    }
    for (size_t i = 0; i < r.rows; i++) printf("%llu %u\n", (unsigned long long)fars[i], costs[i]);
    return 0;
}
