/* Four images and measured link costs: for each way to divide them two and two, whether it is a link and by how much it misses. */
#include <kemotuiki.h>
#include <stdio.h>

int main(void) {
    const uint32_t table[16] = {0, 2, 3, 4,  2, 0, 4, 4,  3, 4, 0, 2,  4, 4, 2, 0};
    const uint64_t fars[3] = {12, 10, 6};
    char text[KEMOTUIKI_TEXT_BYTES];
    for (int i = 0; i < 3; i++) {
        KemotuikiIndex r = kemotuiki_index(4, table, 16, fars[i]);
        if (r.number) {
            kemotuiki_refusal_text(KEMOTUIKI_HEAD(r), text, sizeof text);
            fprintf(stderr, "%s\n", text);
            return 1;
        }
        printf("%llu %lld %s\n", (unsigned long long)fars[i], (long long)r.signed_index, r.signed_index > 0 ? "link" : "no link");
    }
    return 0;
}
