/* Calls that take turns on one processor. */
#include <stddef.h>

typedef void Call(void);

enum { PASSES = 12 };

/* The races of a table are run in several passes, always in the same order, so that a machine that is busy for a while does little
 * harm. Each pass begins with this. */
void begin_pass(void);

/* Microseconds a call of each, at most four: the least of five short turns in this pass and in those before it, in processor time. */
void race(size_t count, Call *const *calls, double *microseconds);
