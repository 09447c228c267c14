/* Cost tables to time the calls on, in which no two images cost nothing. The same seed gives the same table. */
#include <stddef.h>
#include <stdint.h>

uint32_t dice(uint32_t below);
void seed(uint64_t start);

void random_tree(size_t n, uint32_t *t);  /* path costs; three links at each switch */
void caterpillar(size_t n, uint32_t *t);  /* every switch on one path, image 1 at its end */
void star(size_t n, uint32_t *t);         /* one switch */
void balanced(size_t n, uint32_t *t);     /* images in halves, quarters, eighths */
void random_table(size_t n, uint32_t *t); /* entries from 1 to 1,000,000 that no wiring gives */
void nested_levels(size_t n, uint32_t *t); /* each image joins the group of all images before it */
void random_levels(size_t n, uint32_t *t); /* two groups or images at a time are joined by chance, each higher than the last */
void raise(size_t n, uint32_t *t);        /* each entry by 0, 1 or 2 */
