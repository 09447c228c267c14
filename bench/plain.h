/* The same calls in plain C. Each answers 0, or the number of a refusal, and its count or value through the pointer. */
#include <stddef.h>
#include <stdint.h>

int plain_index(size_t n, const uint32_t *t, size_t t_count, uint64_t s, int64_t *value);
int plain_order(size_t n, const uint32_t *t, size_t t_count, size_t first, size_t last, uint32_t *out, size_t room);
int plain_measured(size_t n, const uint32_t *t, size_t t_count, uint64_t *fars, uint32_t *costs, size_t room, size_t *rows);
int plain_measured_before(size_t n, const uint32_t *t, size_t t_count, uint64_t *fars, uint32_t *costs, size_t room, size_t *rows);
int plain_exact(size_t n, const uint32_t *t, size_t t_count, uint64_t *fars, uint32_t *costs, size_t room, size_t *rows);
int plain_exact_all_fours(size_t n, const uint32_t *t, size_t t_count, uint64_t *fars, uint32_t *costs, size_t room, size_t *rows);
int plain_exact_grafted(size_t n, const uint32_t *t, size_t t_count, uint64_t *fars, uint32_t *costs, size_t room, size_t *rows);
int plain_levels(size_t n, const uint32_t *t, size_t t_count, uint64_t *members, uint32_t *heights, size_t room, size_t *groups);
int plain_levels_all_threes(size_t n, const uint32_t *t, size_t t_count, uint64_t *members, uint32_t *heights, size_t room, size_t *groups);
int plain_compare(size_t n, const uint32_t *first, size_t first_count, const uint32_t *second, size_t second_count, size_t v[5]);
int plain_consensus(size_t n, size_t number, const uint32_t *tables, size_t tables_count, uint64_t *fars, uint32_t *costs, size_t room,
                    size_t *rows);
/* Where an event is refused, the images and rows before it are answered beside its number. */
int plain_replay(size_t n, const uint32_t *t, size_t t_count, const uint8_t *events, size_t event_count, uint64_t *fars, uint32_t *costs,
                 size_t room, size_t *images, size_t *rows, size_t *event);
int plain_write_costs(size_t form, size_t n, const uint32_t *t, size_t t_count, uint8_t *out, size_t room, size_t *used);
int plain_read_costs(const uint8_t *bytes, size_t count, size_t position, uint32_t *out, size_t room, size_t *n, size_t *used);
int plain_convert_costs(size_t form, const uint8_t *bytes, size_t count, uint8_t *out, size_t room, size_t *used);
int plain_write_links(size_t form, size_t n, size_t count, const uint64_t *fars, const uint32_t *costs, uint8_t *out, size_t room,
                      size_t *used);
int plain_convert_links(size_t form, const uint8_t *bytes, size_t count, uint8_t *out, size_t room, size_t *used);
int plain_write_batch(size_t form, const uint32_t *ns, const uint32_t *counts, size_t tables, const uint64_t *fars, size_t fars_count,
                      const uint32_t *costs, size_t costs_count, uint8_t *out, size_t room, size_t *used);
int plain_read_links(const uint8_t *bytes, size_t count, size_t position, uint64_t *fars, uint32_t *costs, size_t room, size_t *n,
                     size_t *rows, size_t *used);
int plain_choice(const uint8_t *first, size_t first_count, const uint8_t *second, size_t second_count, size_t *table, size_t *used);
/* The figures of a term report. Where a table is refused, they and the places written are those of the tables before it. */
typedef struct {
    size_t table, images, tables, accepted, apart, sides, pairs, count_sum, largest_count, used;
} PlainReport;
int plain_report(const uint8_t *bytes, size_t count, uint64_t *fars, uint32_t *trees, uint64_t *sums, size_t room, PlainReport *r);
int plain_write_newick(size_t n, size_t count, const uint64_t *fars, const uint32_t *costs, char *out, size_t room, size_t *used);
/* Of a refusal it answers the place as well. */
int plain_read_newick(const char *text, size_t count, uint64_t *fars, uint32_t *costs, size_t room, size_t *n, size_t *rows, size_t *place);
