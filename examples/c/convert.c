/* A stored cost table of four images goes into the new form, and back into the same bytes. With a link that nobody timed, which versions
 * before 4 stored as 0, it goes nowhere; with a cost above the old limits it stays in the new form. The refusals say where that link and
 * that cost stand. */
#include <kemotuiki.h>
#include <stdio.h>
#include <string.h>

int main(void) {
    uint32_t table[16] = {0, 2, 4, 4,  2, 0, 4, 4,  4, 4, 0, 2,  4, 4, 2, 0};
    uint8_t old_bytes[KEMOTUIKI_OLD_COST_BYTES], new_bytes[KEMOTUIKI_COST_BYTES], back[KEMOTUIKI_OLD_COST_BYTES];
    char text[KEMOTUIKI_TEXT_BYTES];
    KemotuikiBytes stored = kemotuiki_write_costs(KEMOTUIKI_OLD_FORM, 4, table, 16, old_bytes, sizeof old_bytes);
    KemotuikiBytes converted = kemotuiki_convert_costs(KEMOTUIKI_NEW_FORM, old_bytes, stored.used, new_bytes, sizeof new_bytes);
    KemotuikiBytes returned = kemotuiki_convert_costs(KEMOTUIKI_OLD_FORM, new_bytes, converted.used, back, sizeof back);
    int same = !returned.number && returned.used == stored.used && !memcmp(back, old_bytes, stored.used);
    printf("%zu bytes in the old form, %zu in the new one, and back: %s\n", stored.used, converted.used,
           same ? "the same" : "not the same");

    /* The last byte ends with the cost of images 3 and 4. */
    old_bytes[stored.used - 1] = 0;
    converted = kemotuiki_convert_costs(KEMOTUIKI_NEW_FORM, old_bytes, stored.used, new_bytes, sizeof new_bytes);
    kemotuiki_refusal_text(KEMOTUIKI_HEAD(converted), text, sizeof text);
    printf("%zu bytes in the old form, and in none from now on: %s\n", stored.used, text);

    table[3] = table[12] = 1500000;
    stored = kemotuiki_write_costs(KEMOTUIKI_NEW_FORM, 4, table, 16, new_bytes, sizeof new_bytes);
    returned = kemotuiki_convert_costs(KEMOTUIKI_OLD_FORM, new_bytes, stored.used, back, sizeof back);
    kemotuiki_refusal_text(KEMOTUIKI_HEAD(returned), text, sizeof text);
    printf("%zu bytes in the new form, and not in the old one: %s\n", stored.used, text);
    return 0;
}
