/*
 * The cases of crates/cases/data through the archive: boundary DATA prints what crates/cases/stdout has for the calls that are
 * exported. Every lent buffer stands between guard bytes, which are compared after the call, and every input is compared with
 * a copy. Each case of the exact reading is read by both its engines, which must answer and leave the same; what a conversion wrote is
 * converted once more, to the form that it has, and must stay; a Newick text that was written is read and one that was read is written,
 * and must be the same; the rows that a replay leaves must be those that the cost table of the images left is read as; a term report and
 * those of its first tables must be what single calls give, table by table; the groups of a table with levels must be sides of the rows
 * that the exact reading gives of it. boundary --edges tries null pointers with count 0, numbers too large for anything, the longest stored
 * tables and Newick text, images that cost nothing, Newick texts, replays, term reports and levels that were written by hand, the longest
 * replays, the most tables and far sides of a term report, the most groups, and the text of every answer.
 */
#include <errno.h>
#include <stdio.h>
#include <stdlib.h>
#include <string.h>

#include "kemotuiki.h"

#define GUARD 64
#define LINE 150000
#define STREAM 3000000

static int faults;
static const char *call_name = "";

/* One lent buffer: its elements between two rows of guard bytes, and a copy from before the call. */
typedef struct {
    unsigned char *block;
    unsigned char *copy;
    size_t count, bytes;
} Lent;

static void *lend(Lent *l, size_t count, size_t width) {
    l->count = count;
    l->bytes = count * width;
    l->block = malloc(l->bytes + 2 * GUARD);
    l->copy = malloc(l->bytes + 1);
    if (!l->block || !l->copy) {
        fprintf(stderr, "no memory\n");
        exit(2);
    }
    memset(l->block, 0xA5, l->bytes + 2 * GUARD);
    return l->block + GUARD;
}

static void keep(Lent *l) { memcpy(l->copy, l->block + GUARD, l->bytes); }

static void fault(const char *what) {
    fprintf(stderr, "%s: %s\n", call_name, what);
    faults++;
}

/* The guards are whole; an input, and an output that was refused or lies behind the answer, is as it was. */
static void settle(Lent *l, size_t written_bytes) {
    for (size_t i = 0; i < GUARD; i++)
        if (l->block[i] != 0xA5 || l->block[GUARD + l->bytes + i] != 0xA5) {
            fault("a byte outside a lent buffer was altered");
            break;
        }
    if (written_bytes > l->bytes)
        fault("more places answered than were lent");
    else if (memcmp(l->copy + written_bytes, l->block + GUARD + written_bytes, l->bytes - written_bytes))
        fault("a place that the answer does not name was altered");
    free(l->block);
    free(l->copy);
}

/* ---- reading one line of numbers ---- */

static char line[LINE];
static char *at;

static unsigned long long number(void) {
    char *end;
    errno = 0;
    unsigned long long v = strtoull(at, &end, 10);
    if (end == at || errno) {
        fprintf(stderr, "%s: a bad line\n", call_name);
        exit(2);
    }
    at = end;
    return v;
}

static uint32_t *read32(Lent *l) {
    size_t count = number();
    uint32_t *p = lend(l, count, 4);
    for (size_t i = 0; i < count; i++) p[i] = (uint32_t)number();
    keep(l);
    return p;
}

static uint64_t *read64(Lent *l) {
    size_t count = number();
    uint64_t *p = lend(l, count, 8);
    for (size_t i = 0; i < count; i++) p[i] = number();
    keep(l);
    return p;
}

static uint8_t *read8(Lent *l) {
    size_t count = number();
    uint8_t *p = lend(l, count, 1);
    for (size_t i = 0; i < count; i++) p[i] = (uint8_t)number();
    keep(l);
    return p;
}

static uint8_t *lend_bytes(Lent *l, const uint8_t *bytes, size_t count) {
    uint8_t *p = memcpy(lend(l, count, 1), bytes, count);
    keep(l);
    return p;
}

/* How many bytes of the line before are kept, and pieces, each so many times, behind them. */
static uint8_t *read_stream(Lent *l) {
    static uint8_t joined[STREAM];
    size_t count = number();
    for (size_t pieces = number(); pieces > 0; pieces--) {
        Lent lp;
        size_t times = number();
        uint8_t *piece = read8(&lp);
        if (count > STREAM || times > STREAM || times * lp.count > STREAM - count) {
            fprintf(stderr, "%s: a stream that is too long\n", call_name);
            exit(2);
        }
        for (; times > 0; times--, count += lp.count) memcpy(joined + count, piece, lp.count);
        settle(&lp, 0);
    }
    return lend_bytes(l, joined, count);
}

/* ---- printing an answer and the lent outputs ---- */

/*
 * The number and, of a refusal, its places. All answers are words without padding: the fields by their names are compared with the
 * words in front.
 */
#define SHOW_HEAD(r, tables) show_head(KEMOTUIKI_HEAD(r), &(r), tables)

static void show_head(size_t number, size_t table, size_t a, size_t b, size_t c, size_t d, const void *whole, int tables) {
    size_t named[6] = {number, table, a, b, c, d};
    if (memcmp(whole, named, sizeof named)) fault("the head does not stand in front");
    printf("%zu", number);
    if (!number) {
        if (table || a || b || c || d) fault("places beside an accepted answer");
        return;
    }
    if (tables) printf(" %zu", table);
    else if (table) fault("a table's number from a call with one table");
    printf(" %zu %zu %zu %zu", a, b, c, d);
}

/* The same, and behind a refusal all words are 0; 1 where the call was accepted, and the caller prints the values. */
#define ANSWER(r, tables) (SHOW_HEAD(r, tables), no_values(&(r), sizeof(r) / sizeof(size_t)))

static int no_values(const void *whole, size_t size) {
    size_t words[11];
    memcpy(words, whole, size * sizeof(size_t));
    if (!words[0]) return 1;
    for (size_t i = 6; i < size; i++)
        if (words[i]) fault("a value beside a refusal");
    return 0;
}

static void show32(const uint32_t *p, size_t count) {
    printf(" %zu", count);
    for (size_t i = 0; i < count; i++) printf(" %u", p[i]);
}

static void show64(const uint64_t *p, size_t count) {
    printf(" %zu", count);
    for (size_t i = 0; i < count; i++) printf(" %llu", (unsigned long long)p[i]);
}

static void show8(const uint8_t *p, size_t count) {
    printf(" %zu", count);
    for (size_t i = 0; i < count; i++) printf(" %u", p[i]);
}

/* ---- what many calls have in common ---- */

/* The far sides and costs of a link table, or the room for one, as the four arguments that they are in every call. */
typedef struct {
    Lent lf, lc;
    uint64_t *fars;
    uint32_t *costs;
} Rows;

#define ROWS(w) (w).fars, (w).lf.count, (w).costs, (w).lc.count

static void read_rows(Rows *w) {
    w->fars = read64(&w->lf);
    w->costs = read32(&w->lc);
}

static void lend_rows(Rows *w, size_t fars_count, size_t costs_count) {
    w->fars = lend(&w->lf, fars_count, 8);
    w->costs = lend(&w->lc, costs_count, 4);
    keep(&w->lf);
    keep(&w->lc);
}

static void settle_rows(Rows *w, size_t written) {
    settle(&w->lf, written * 8);
    settle(&w->lc, written * 4);
}

/* Rows that a call wrote, in the room that it was lent. */
static void show_rows(Rows *w, size_t written) {
    show64(w->fars, w->lf.count);
    show32(w->costs, w->lc.count);
    settle_rows(w, written);
}

/* The same of bytes, with the answer, and of 32 bits. */
static void show_bytes(KemotuikiBytes r, int tables, Lent *lo) {
    if (ANSWER(r, tables)) printf(" %zu", r.used);
    show8(lo->block + GUARD, lo->count);
    settle(lo, r.used);
}

static void show_places(Lent *lo, size_t written) {
    show32((const uint32_t *)(lo->block + GUARD), lo->count);
    settle(lo, written * 4);
}

/* Whether these rows are the first of the others. */
static int same_rows(size_t rows, const uint64_t *fars, const uint32_t *costs, const Rows *w) {
    return rows <= w->lf.count && rows <= w->lc.count && !memcmp(fars, w->fars, rows * 8) && !memcmp(costs, w->costs, rows * 4);
}

/* ---- the calls ---- */

static void do_index(void) {
    Lent lt;
    size_t n = number();
    uint32_t *t = read32(&lt);
    uint64_t s = number();
    KemotuikiIndex r = kemotuiki_index(n, t, lt.count, s);
    if (ANSWER(r, 0)) printf(" %lld", (long long)r.signed_index);
    settle(&lt, 0);
}

static void do_order(void) {
    Lent lt, lo;
    size_t n = number();
    uint32_t *t = read32(&lt);
    size_t first = number(), last = number();
    uint32_t *out = read32(&lo);
    KemotuikiOrder r = kemotuiki_order(n, t, lt.count, first, last, out, lo.count);
    if (ANSWER(r, 0)) printf(" %zu", r.images);
    show_places(&lo, r.images);
    settle(&lt, 0);
}

typedef KemotuikiRows Reading(size_t, const uint32_t *, size_t, uint64_t *, size_t, uint32_t *, size_t);

/* A buffer lent once more, as the first one was before its call. */
static void *lend_again(Lent *l, const Lent *first, size_t width) {
    void *p = lend(l, first->count, width);
    memcpy(p, first->copy, first->bytes);
    keep(l);
    return p;
}

/* The other engine reads the same table, with places of its own: it answers and leaves the same. */
static void hold_engine(Reading *other, size_t n, const uint32_t *t, size_t t_count, const Rows *w, KemotuikiRows r) {
    Rows v;
    v.fars = lend_again(&v.lf, &w->lf, 8);
    v.costs = lend_again(&v.lc, &w->lc, 4);
    KemotuikiRows s = other(n, t, t_count, ROWS(v));
    if (memcmp(&s, &r, sizeof s)) fault("the two engines differ in the answer");
    if (memcmp(v.fars, w->fars, w->lf.bytes) || memcmp(v.costs, w->costs, w->lc.bytes)) fault("the two engines differ in a place");
    settle_rows(&v, s.rows);
}

/* What is printed is of the first call; the other one is null where there is one engine. */
static void reading(Reading *call, Reading *other) {
    Lent lt;
    Rows w;
    size_t n = number();
    uint32_t *t = read32(&lt);
    read_rows(&w);
    KemotuikiRows r = call(n, t, lt.count, ROWS(w));
    if (other) hold_engine(other, n, t, lt.count, &w, r);
    if (ANSWER(r, 0)) printf(" %zu", r.rows);
    show_rows(&w, r.rows);
    settle(&lt, 0);
}

static void do_measured(void) { reading(kemotuiki_measured, NULL); }
static void do_exact(void) { reading(kemotuiki_exact, kemotuiki_exact_grafted); }
static void do_exact_grafted(void) { reading(kemotuiki_exact_grafted, kemotuiki_exact); }

static void do_path(void) {
    Rows w;
    size_t n = number(), count = number();
    read_rows(&w);
    size_t i = number(), j = number();
    KemotuikiPath r = kemotuiki_path(n, count, ROWS(w), i, j);
    if (ANSWER(r, 0)) printf(" %zu", r.cost);
    settle_rows(&w, 0);
}

static void do_upper_rows(void) {
    Rows w;
    Lent lo;
    size_t n = number(), count = number();
    read_rows(&w);
    uint32_t *out = read32(&lo);
    KemotuikiRows r = kemotuiki_upper_rows(n, count, ROWS(w), out, lo.count);
    if (ANSWER(r, 0)) printf(" %zu", r.rows);
    show_places(&lo, r.rows);
    settle_rows(&w, 0);
}

static void do_route(void) {
    Rows w;
    Lent lo;
    size_t n = number(), count = number();
    read_rows(&w);
    size_t i = number();
    uint32_t *out = read32(&lo);
    KemotuikiRows r = kemotuiki_route(n, count, ROWS(w), i, out, lo.count);
    if (ANSWER(r, 0)) printf(" %zu", r.rows);
    show_places(&lo, r.rows);
    settle_rows(&w, 0);
}

static void do_compare(void) {
    Lent la, lb;
    size_t n = number();
    uint32_t *first = read32(&la), *second = read32(&lb);
    KemotuikiComparison r = kemotuiki_compare(n, first, la.count, second, lb.count);
    if (ANSWER(r, 1)) printf(" %zu %zu %zu %zu %zu", r.inner_first, r.inner_second, r.common, r.count, r.over);
    settle(&la, 0);
    settle(&lb, 0);
}

static void do_consensus(void) {
    Lent lt;
    Rows w;
    size_t n = number(), tables = number();
    uint32_t *t = read32(&lt);
    read_rows(&w);
    KemotuikiRows r = kemotuiki_consensus(n, tables, t, lt.count, ROWS(w));
    if (ANSWER(r, 1)) printf(" %zu", r.rows);
    show_rows(&w, r.rows);
    settle(&lt, 0);
}

/* What a replay left is what the cost table of the images that are left is read as, in just enough room. */
static void hold_replay(size_t n, const uint32_t *t, const uint8_t *events, size_t taken, const Rows *w, KemotuikiReplay r) {
    static uint32_t smaller[KEMOTUIKI_IMAGES * KEMOTUIKI_IMAGES];
    Rows v;
    size_t left[KEMOTUIKI_IMAGES], images = n;
    for (size_t i = 0; i < n; i++) left[i] = i;
    for (size_t k = 0; k < taken; k++, images--) {
        if (events[k] < 1 || events[k] > images || images == 3) {
            fault("an event that has to be refused was taken");
            return;
        }
        memmove(left + events[k] - 1, left + events[k], (images - events[k]) * sizeof *left);
    }
    for (size_t i = 0; i < images; i++)
        for (size_t j = 0; j < images; j++) smaller[i * images + j] = t[left[i] * n + left[j]];
    lend_rows(&v, 2 * images - 3, 2 * images - 3);
    KemotuikiRows s = kemotuiki_exact_grafted(images, smaller, images * images, ROWS(v));
    if (r.images != images || s.number || s.rows != r.rows || !same_rows(s.rows, v.fars, v.costs, w))
        fault("what is left is not the exact reading of the smaller table");
    settle_rows(&v, s.rows);
}

/* The values stand beside the refusal of an event, which ends the replay. */
static void do_replay(void) {
    Lent lt, le;
    Rows w;
    size_t n = number();
    uint32_t *t = read32(&lt);
    uint8_t *events = read8(&le);
    read_rows(&w);
    KemotuikiReplay r = kemotuiki_replay(n, t, lt.count, events, le.count, ROWS(w));
    SHOW_HEAD(r, 0);
    printf(" %zu %zu %zu", r.images, r.rows, r.event);
    if (r.number ? r.event > le.count || (!r.event && (r.images || r.rows)) : r.event) fault("values that such an answer has not");
    else if (!r.number || r.event) hold_replay(n, t, events, r.number ? r.event - 1 : le.count, &w, r);
    show_rows(&w, r.rows);
    settle(&lt, 0);
    settle(&le, 0);
}

/* ---- levels ---- */

/* The first group that holds both images, counted from 0; as many as there are, if none does. Of groups that are nested the smallest comes
 * first. */
static size_t first_with(size_t groups, const uint64_t *members, size_t i, size_t j) {
    size_t k = 0;
    while (k < groups && !(members[k] >> i & members[k] >> j & 1)) k++;
    return k;
}

/*
 * The groups of a table, and its exact reading beside them. The last group is all images; two groups are nested or disjoint; the entry of
 * two images is the height of the smallest group that holds both. The table has a tree, each other group and each image is one side of a
 * row of it, and the smallest group around it is so much higher as the row costs, or as both sides make it cost together.
 */
static void hold_groups(size_t n, const uint32_t *t, size_t groups, const uint64_t *members, const uint32_t *heights) {
    const uint64_t all = UINT64_MAX >> (KEMOTUIKI_IMAGES - n);
    uint32_t costs[KEMOTUIKI_ROWS] = {0};
    Rows w;
    if (groups < 1 || groups > n - 1 || members[groups - 1] != all) {
        fault("the last group is not all images");
        return;
    }
    for (size_t k = 0; k < groups; k++)
        for (size_t m = 0; m < k; m++) {
            uint64_t common = members[k] & members[m];
            if (members[m] >= members[k] || (common && common != members[m])) fault("two groups are neither nested nor disjoint");
        }
    for (size_t k = 0; k < groups; k++)
        if (!(members[k] & (members[k] - 1))) fault("a group of fewer than two images");
    for (size_t i = 0; i < n; i++)
        for (size_t j = 0; j < i; j++)
            if (heights[first_with(groups, members, i, j)] != t[i * n + j]) fault("an entry is not the height of the smallest group");
    lend_rows(&w, 2 * n - 3, 2 * n - 3);
    KemotuikiRows s = kemotuiki_exact(n, t, n * n, ROWS(w));
    if (s.number) fault("a table with levels has no tree");
    for (size_t k = 0; k + 1 < n + groups; k++) {
        uint64_t part = k < n ? (uint64_t)1 << k : members[k - n];
        size_t around = 0, m = 0;
        while (around < groups && (part & ~members[around] || part == members[around])) around++;
        while (m < s.rows && w.fars[m] != (part & 1 ? all ^ part : part)) m++;
        if (around == groups || m == s.rows) fault("a group is no side of a row");
        else costs[m] += heights[around] - (k < n ? 0 : heights[k - n]);
    }
    if (memcmp(costs, w.costs, s.rows * 4)) fault("a row costs something else than the heights of its ends differ by");
    settle_rows(&w, s.rows);
}

static void do_levels(void) {
    Lent lt;
    Rows w;
    size_t n = number();
    uint32_t *t = read32(&lt);
    read_rows(&w);
    KemotuikiLevels r = kemotuiki_levels(n, t, lt.count, ROWS(w));
    if (ANSWER(r, 0)) {
        printf(" %zu", r.groups);
        hold_groups(n, t, r.groups, w.fars, w.costs);
    }
    show_rows(&w, r.groups);
    settle(&lt, 0);
}

/* ---- term reports ---- */

/* The room of a term report, as the six arguments that it is: far sides, in how many trees each is, and the sums of its costs. */
typedef struct {
    Lent lf, lt, ls;
    uint64_t *fars, *sums;
    uint32_t *trees;
} Sides;

#define SIDES(w) (w).fars, (w).lf.count, (w).trees, (w).lt.count, (w).sums, (w).ls.count

static uint64_t *filled64(Lent *l, size_t count, uint64_t fill) {
    uint64_t *p = lend(l, count, 8);
    for (size_t i = 0; i < count; i++) p[i] = fill;
    keep(l);
    return p;
}

static uint32_t *filled32(Lent *l, size_t count, uint32_t fill) {
    uint32_t *p = lend(l, count, 4);
    for (size_t i = 0; i < count; i++) p[i] = fill;
    keep(l);
    return p;
}

/* Each of the three as its length and what all its places hold. */
static void read_sides(Sides *w) {
    size_t count = number();
    w->fars = filled64(&w->lf, count, number());
    count = number();
    w->trees = filled32(&w->lt, count, (uint32_t)number());
    count = number();
    w->sums = filled64(&w->ls, count, number());
}

static void lend_sides(Sides *w, size_t fars_count, size_t trees_count, size_t sums_count) {
    w->fars = filled64(&w->lf, fars_count, 7);
    w->trees = filled32(&w->lt, trees_count, 8);
    w->sums = filled64(&w->ls, sums_count, 9);
}

static void settle_sides(Sides *w, size_t written) {
    settle(&w->lf, written * 8);
    settle(&w->lt, written * 4);
    settle(&w->ls, written * 8);
}

/* How many places behind those written are as they were. */
static void show_kept(const Lent *l, size_t written, size_t width) {
    size_t kept = 0;
    for (size_t at = written * width; at < l->bytes; at += width) kept += !memcmp(l->copy + at, l->block + GUARD + at, width);
    printf(" %zu", kept);
}

static void show_sides(Sides *w, size_t written) {
    show64(w->fars, written);
    show_kept(&w->lf, written, 8);
    show32(w->trees, written);
    show_kept(&w->lt, written, 4);
    show64(w->sums, written);
    show_kept(&w->ls, written, 8);
    settle_sides(w, written);
}

/* A term report by single calls, table by table, with room for the far sides of one table too many; before is the last table that has
 * a tree. */
typedef struct {
    KemotuikiReport r;
    uint64_t fars[KEMOTUIKI_REPORT_SIDES + KEMOTUIKI_ROWS], sums[KEMOTUIKI_REPORT_SIDES + KEMOTUIKI_ROWS];
    uint32_t trees[KEMOTUIKI_REPORT_SIDES + KEMOTUIKI_ROWS], before[KEMOTUIKI_IMAGES * KEMOTUIKI_IMAGES];
} Term;

static int same_report(const Term *m, KemotuikiReport r, const Sides *w) {
    size_t sides = r.sides;
    return !memcmp(&m->r, &r, sizeof r) && sides <= w->lf.count && sides <= w->lt.count && sides <= w->ls.count &&
           !memcmp(m->fars, w->fars, sides * 8) && !memcmp(m->trees, w->trees, sides * 4) && !memcmp(m->sums, w->sums, sides * 8);
}

/* One far side of one tree, put among those before it. */
static void see_side(Term *m, uint64_t far, uint32_t cost) {
    size_t k = 0, behind;
    while (k < m->r.sides && m->fars[k] < far) k++;
    if (k == m->r.sides || m->fars[k] != far) {
        behind = m->r.sides++ - k;
        memmove(m->fars + k + 1, m->fars + k, behind * sizeof *m->fars);
        memmove(m->trees + k + 1, m->trees + k, behind * sizeof *m->trees);
        memmove(m->sums + k + 1, m->sums + k, behind * sizeof *m->sums);
        m->fars[k] = far, m->trees[k] = 0, m->sums[k] = 0;
    }
    m->trees[k]++, m->sums[k] += cost;
}

/* A table that has this tree: its inner far sides, and the pair that it is with the last one. */
static void see_tree(Term *m, size_t n, const uint32_t *t, size_t rows, const uint64_t *fars, const uint32_t *costs) {
    for (size_t k = 0; k < rows; k++) {
        size_t ones = 0;
        for (size_t i = 0; i < n; i++) ones += fars[k] >> i & 1;
        if (ones > 1 && ones < n - 1) see_side(m, fars[k], costs[k]);
    }
    if (m->r.accepted++) {
        KemotuikiComparison both = kemotuiki_compare(n, m->before, n * n, t, n * n);
        m->r.pairs++, m->r.count_sum += both.count;
        if (m->r.largest_count < both.count) m->r.largest_count = both.count;
    }
    memcpy(m->before, t, n * n * sizeof *t);
}

/* The table is refused, and the report of those before it stands. */
static int end_report(Term *m, size_t number, size_t a, size_t b) {
    m->r.number = number, m->r.table = m->r.tables + 1, m->r.a = a, m->r.b = b;
    return 0;
}

/* The next table of these bytes; 0 if it is refused. */
static int next_table(Term *m, const uint8_t *bytes, size_t count) {
    static uint32_t t[KEMOTUIKI_IMAGES * KEMOTUIKI_IMAGES], costs[KEMOTUIKI_ROWS];
    static uint64_t fars[KEMOTUIKI_ROWS];
    static Term old;
    KemotuikiCosts c = kemotuiki_read_costs(bytes, count, 8 * m->r.used, t, sizeof t / sizeof *t);
    if (c.number) return end_report(m, c.number, c.a, c.b);
    if (m->r.tables && c.n != m->r.images) return end_report(m, KEMOTUIKI_DIFFERENT_N, 0, 0);
    KemotuikiRows tree = kemotuiki_exact_grafted(c.n, t, c.n * c.n, fars, KEMOTUIKI_ROWS, costs, KEMOTUIKI_ROWS);
    old = *m;
    m->r.images = c.n, m->r.tables++, m->r.used += c.used;
    if (tree.number) m->r.apart++;
    else see_tree(m, c.n, t, tree.rows, fars, costs);
    if (m->r.sides <= KEMOTUIKI_REPORT_SIDES) return 1;
    *m = old;
    return end_report(m, KEMOTUIKI_TOO_MANY_SIDES, 0, 0);
}

/* The report over no more bytes than these tables have, in just enough room. */
static void hold_first_tables(const Term *m, const uint8_t *bytes) {
    Lent lb;
    Sides w;
    const uint8_t *first = lend_bytes(&lb, bytes, m->r.used);
    lend_sides(&w, KEMOTUIKI_REPORT_SIDES, KEMOTUIKI_REPORT_SIDES, KEMOTUIKI_REPORT_SIDES);
    KemotuikiReport r = kemotuiki_report(m->r.used ? first : NULL, m->r.used, SIDES(w));
    if (!same_report(m, r, &w)) fault("the report of the first tables is not what single calls give");
    settle_sides(&w, r.sides);
    settle(&lb, 0);
}

/* A report is what single calls give, and so are those of its first tables, of up to twenty. */
static void hold_report(const uint8_t *bytes, size_t count, KemotuikiReport r, const Sides *w) {
    static Term m;
    memset(&m, 0, sizeof m);
    if (w->lf.count < KEMOTUIKI_REPORT_SIDES || w->lt.count < KEMOTUIKI_REPORT_SIDES || w->ls.count < KEMOTUIKI_REPORT_SIDES)
        m.r.number = KEMOTUIKI_NO_ROOM;
    else
        do {
            if (m.r.tables <= 20) hold_first_tables(&m, bytes);
        } while (m.r.used < count && m.r.tables < KEMOTUIKI_REPORT_TABLES && next_table(&m, bytes, count));
    if (!same_report(&m, r, w)) fault("the report is not what single calls give");
}

/* The values stand beside the refusal of a table, which ends the report. */
static void do_report(void) {
    Lent lb;
    Sides w;
    uint8_t *bytes = read_stream(&lb);
    read_sides(&w);
    KemotuikiReport r = kemotuiki_report(bytes, lb.count, SIDES(w));
    SHOW_HEAD(r, 1);
    printf(" %zu %zu %zu %zu %zu", r.images, r.tables, r.accepted, r.apart, r.sides);
    printf(" %zu %zu %zu %zu", r.pairs, r.count_sum, r.largest_count, r.used);
    hold_report(bytes, lb.count, r, &w);
    show_sides(&w, r.sides);
    settle(&lb, 0);
}

/* ---- stored tables and Newick text ---- */

static void do_write_costs(void) {
    Lent lt, lo;
    size_t form = number(), n = number();
    uint32_t *t = read32(&lt);
    uint8_t *out = read8(&lo);
    show_bytes(kemotuiki_write_costs(form, n, t, lt.count, out, lo.count), 0, &lo);
    settle(&lt, 0);
}

static void do_read_costs(void) {
    Lent lb, lo;
    uint8_t *bytes = read8(&lb);
    size_t position = number();
    uint32_t *out = read32(&lo);
    KemotuikiCosts r = kemotuiki_read_costs(bytes, lb.count, position, out, lo.count);
    if (ANSWER(r, 0)) printf(" %zu %zu", r.n, r.used);
    show_places(&lo, r.n * r.n);
    settle(&lb, 0);
}

static void do_write_links(void) {
    Rows w;
    Lent lo;
    size_t form = number(), n = number(), count = number();
    read_rows(&w);
    uint8_t *out = read8(&lo);
    show_bytes(kemotuiki_write_links(form, n, count, ROWS(w), out, lo.count), 0, &lo);
    settle_rows(&w, 0);
}

static void do_read_links(void) {
    Lent lb;
    Rows w;
    uint8_t *bytes = read8(&lb);
    size_t position = number();
    read_rows(&w);
    KemotuikiLinks r = kemotuiki_read_links(bytes, lb.count, position, ROWS(w));
    if (ANSWER(r, 0)) printf(" %zu %zu %zu", r.n, r.rows, r.used);
    show_rows(&w, r.rows);
    settle(&lb, 0);
}

static void do_write_batch(void) {
    Lent ln, lm, lo;
    Rows w;
    size_t form = number();
    uint32_t *ns = read32(&ln), *counts = read32(&lm);
    read_rows(&w);
    uint8_t *out = read8(&lo);
    show_bytes(kemotuiki_write_batch(form, ns, ln.count, counts, lm.count, ROWS(w), out, lo.count), 1, &lo);
    settle(&ln, 0);
    settle(&lm, 0);
    settle_rows(&w, 0);
}

static void do_choice(void) {
    Lent la, lb;
    uint8_t *first = read8(&la), *second = read8(&lb);
    KemotuikiChoice r = kemotuiki_choice(first, la.count, second, lb.count);
    if (ANSWER(r, 1)) printf(" %zu %zu", r.chosen, r.used);
    show8(r.chosen == 1 ? first : second, r.used);
    settle(&la, 0);
    settle(&lb, 0);
}

typedef KemotuikiBytes Conversion(size_t, const uint8_t *, size_t, uint8_t *, size_t);

/*
 * A conversion of the table in these bytes. What it wrote must go into the form that it then has to the same bytes, whatever number
 * of the new form is told.
 */
static void conversion(Conversion *call) {
    Lent lb, lo, la;
    size_t form = number();
    uint8_t *bytes = read8(&lb), *out = read8(&lo);
    KemotuikiBytes r = call(form, bytes, lb.count, out, lo.count);
    if (!r.number) {
        uint8_t *again = lend(&la, r.used, 1);
        keep(&la);
        KemotuikiBytes s = call(form ? SIZE_MAX - form + 1 : 0, out, r.used, again, r.used);
        if (s.number || s.used != r.used || memcmp(again, out, r.used)) fault("converted to its own form, it is not the same");
        settle(&la, s.used);
    }
    show_bytes(r, 0, &lo);
    settle(&lb, 0);
}

static void do_convert_costs(void) { conversion(kemotuiki_convert_costs); }
static void do_convert_links(void) { conversion(kemotuiki_convert_links); }

/* The rows of a table that was written as this text, or read from it, go into the same text in just enough room, and back. */
static void hold_newick(size_t n, size_t rows, const uint64_t *fars, const uint32_t *costs, const char *text, size_t used) {
    Lent lt;
    Rows w;
    char *again = lend(&lt, used, 1);
    keep(&lt);
    KemotuikiBytes b = kemotuiki_write_newick(n, rows, fars, rows, costs, rows, again, used);
    if (b.number || b.used != used || memcmp(again, text, used)) fault("its rows are not written as the same text");
    settle(&lt, b.used);
    lend_rows(&w, 2 * n - 3, 2 * n - 3);
    KemotuikiTree r = kemotuiki_read_newick(text, used, ROWS(w));
    if (r.number || r.n != n || r.rows != rows || !same_rows(rows, fars, costs, &w)) fault("its text is not read as the same rows");
    settle_rows(&w, r.rows);
}

static void do_write_newick(void) {
    Rows w;
    Lent lo;
    size_t n = number(), count = number();
    read_rows(&w);
    char *out = (char *)read8(&lo);
    KemotuikiBytes r = kemotuiki_write_newick(n, count, ROWS(w), out, lo.count);
    if (!r.number) hold_newick(n, count, w.fars, w.costs, out, r.used);
    show_bytes(r, 0, &lo);
    settle_rows(&w, 0);
}

static void do_read_newick(void) {
    Lent lt;
    Rows w;
    char *text = (char *)read8(&lt);
    read_rows(&w);
    KemotuikiTree r = kemotuiki_read_newick(text, lt.count, ROWS(w));
    if (ANSWER(r, 0)) printf(" %zu %zu", r.n, r.rows);
    if (!r.number) hold_newick(r.n, r.rows, w.fars, w.costs, text, lt.count);
    show_rows(&w, r.rows);
    settle(&lt, 0);
}

static void do_refusal_text(void) {
    Lent lo;
    size_t head[6];
    for (int i = 0; i < 6; i++) head[i] = number();
    uint8_t *out = read8(&lo);
    show_bytes(kemotuiki_refusal_text(head[0], head[1], head[2], head[3], head[4], head[5], (char *)out, lo.count), 0, &lo);
}

static const struct {
    const char *name;
    void (*run)(void);
} calls[] = {
    {"index", do_index},           {"order", do_order},           {"measured", do_measured},
    {"exact", do_exact},           {"path", do_path},             {"upper_rows", do_upper_rows},
    {"route", do_route},           {"compare", do_compare},       {"write_costs", do_write_costs},
    {"read_costs", do_read_costs}, {"write_links", do_write_links}, {"read_links", do_read_links},
    {"write_batch", do_write_batch}, {"choice", do_choice},       {"refusal_text", do_refusal_text},
    {"consensus", do_consensus},   {"exact_grafted", do_exact_grafted}, {"convert_costs", do_convert_costs},
    {"convert_links", do_convert_links}, {"write_newick", do_write_newick}, {"read_newick", do_read_newick},
    {"replay", do_replay},         {"report", do_report},         {"levels", do_levels},
};

static int cases(const char *folder) {
    for (size_t k = 0; k < sizeof calls / sizeof *calls; k++) {
        char path[4096];
        call_name = calls[k].name;
        snprintf(path, sizeof path, "%s/%s.txt", folder, call_name);
        FILE *f = fopen(path, "r");
        if (!f) {
            fprintf(stderr, "cannot open %s\n", path);
            return 2;
        }
        printf("%s\n", call_name);
        while (fgets(line, sizeof line, f)) {
            at = line;
            calls[k].run();
            printf("\n");
        }
        fclose(f);
    }
    return faults ? 1 : 0;
}

/* ---- null pointers with count 0, and numbers too large for anything ---- */

/* The whole answer of one call: refused by this number, at this place and of this table, and all other words 0. */
#define EXPECT(Kind, name, arguments, want, place, table) \
    do { \
        Kind r = kemotuiki_##name arguments; \
        expect(#name, &r, sizeof r / sizeof(size_t), want, place, table); \
    } while (0)

static void expect_at(const char *name, const void *answer, size_t size, size_t want, size_t a, size_t b, size_t table) {
    size_t words[15], wanted[15] = {want, table, a, b};
    call_name = name;
    memcpy(words, answer, size * sizeof(size_t));
    if (memcmp(words, wanted, size * sizeof(size_t))) {
        fprintf(stderr, "%s: refusal %zu at %zu %zu of table %zu, not %zu at %zu %zu of %zu\n", name, words[0], words[2], words[3], words[1],
                want, a, b, table);
        faults++;
    }
}

static void expect(const char *name, const void *answer, size_t size, size_t want, size_t place, size_t table) {
    expect_at(name, answer, size, want, place, 0, table);
}

/* Numbers that a writer may be told for the form: the first is the old one, all others are the new one. */
static const size_t forms[] = {KEMOTUIKI_OLD_FORM, KEMOTUIKI_NEW_FORM, 2, (size_t)1 << 32, (size_t)1 << 63, SIZE_MAX};

/* Every call with a number of images that no table has: 1, with the number unchanged. */
static void no_images(void) {
    static const size_t bad[] = {0, 1, 2, 65, 66, 4294967295u, (size_t)1 << 32, ((size_t)1 << 32) + 3, SIZE_MAX / 2, SIZE_MAX};
    for (size_t k = 0; k < sizeof bad / sizeof *bad; k++) {
        size_t n = bad[k];
        EXPECT(KemotuikiIndex, index, (n, NULL, 0, 2), KEMOTUIKI_BAD_N, n, 0);
        EXPECT(KemotuikiOrder, order, (n, NULL, 0, 1, 2, NULL, 0), KEMOTUIKI_BAD_N, n, 0);
        EXPECT(KemotuikiRows, measured, (n, NULL, 0, NULL, 0, NULL, 0), KEMOTUIKI_BAD_N, n, 0);
        EXPECT(KemotuikiRows, exact, (n, NULL, 0, NULL, 0, NULL, 0), KEMOTUIKI_BAD_N, n, 0);
        EXPECT(KemotuikiRows, exact_grafted, (n, NULL, 0, NULL, 0, NULL, 0), KEMOTUIKI_BAD_N, n, 0);
        EXPECT(KemotuikiLevels, levels, (n, NULL, 0, NULL, 0, NULL, 0), KEMOTUIKI_BAD_N, n, 0);
        EXPECT(KemotuikiPath, path, (n, n, NULL, 0, NULL, 0, 1, 2), KEMOTUIKI_BAD_N, n, 0);
        EXPECT(KemotuikiRows, upper_rows, (n, n, NULL, 0, NULL, 0, NULL, 0), KEMOTUIKI_BAD_N, n, 0);
        EXPECT(KemotuikiRows, route, (n, n, NULL, 0, NULL, 0, 1, NULL, 0), KEMOTUIKI_BAD_N, n, 0);
        EXPECT(KemotuikiBytes, write_newick, (n, n, NULL, 0, NULL, 0, NULL, 0), KEMOTUIKI_BAD_N, n, 0);
        EXPECT(KemotuikiComparison, compare, (n, NULL, 0, NULL, 0), KEMOTUIKI_BAD_N, n, 0);
        EXPECT(KemotuikiRows, consensus, (n, n, NULL, 0, NULL, 0, NULL, 0), KEMOTUIKI_BAD_N, n, 0);
        EXPECT(KemotuikiReplay, replay, (n, NULL, 0, NULL, 0, NULL, 0, NULL, 0), KEMOTUIKI_BAD_N, n, 0);
        for (size_t f = 0; f < sizeof forms / sizeof *forms; f++) {
            EXPECT(KemotuikiBytes, write_costs, (forms[f], n, NULL, 0, NULL, 0), KEMOTUIKI_BAD_N, n, 0);
            EXPECT(KemotuikiBytes, write_links, (forms[f], n, n, NULL, 0, NULL, 0, NULL, 0), KEMOTUIKI_BAD_N, n, 0);
        }
    }
}

/* Empty slices, which C lends as null pointers, and counts too large for anything. */
static void no_places(void) {
    static const size_t good[] = {3, 4, 33, 64};
    for (size_t k = 0; k < sizeof good / sizeof *good; k++) {
        size_t n = good[k];
        EXPECT(KemotuikiIndex, index, (n, NULL, 0, UINT64_MAX), KEMOTUIKI_BAD_LENGTH, 0, 0);
        EXPECT(KemotuikiOrder, order, (n, NULL, 0, SIZE_MAX, SIZE_MAX, NULL, 0), KEMOTUIKI_BAD_LENGTH, 0, 0);
        EXPECT(KemotuikiRows, measured, (n, NULL, 0, NULL, 0, NULL, 0), KEMOTUIKI_BAD_LENGTH, 0, 0);
        EXPECT(KemotuikiRows, exact, (n, NULL, 0, NULL, 0, NULL, 0), KEMOTUIKI_BAD_LENGTH, 0, 0);
        EXPECT(KemotuikiRows, exact_grafted, (n, NULL, 0, NULL, 0, NULL, 0), KEMOTUIKI_BAD_LENGTH, 0, 0);
        EXPECT(KemotuikiLevels, levels, (n, NULL, 0, NULL, 0, NULL, 0), KEMOTUIKI_BAD_LENGTH, 0, 0);
        EXPECT(KemotuikiBytes, write_costs, (KEMOTUIKI_OLD_FORM, n, NULL, 0, NULL, 0), KEMOTUIKI_BAD_LENGTH, 0, 0);
        EXPECT(KemotuikiBytes, write_costs, (KEMOTUIKI_NEW_FORM, n, NULL, 0, NULL, 0), KEMOTUIKI_BAD_LENGTH, 0, 0);
        EXPECT(KemotuikiPath, path, (n, n, NULL, 0, NULL, 0, SIZE_MAX, SIZE_MAX), KEMOTUIKI_BAD_LENGTH, 0, 0);
        EXPECT(KemotuikiPath, path, (n, SIZE_MAX, NULL, 0, NULL, 0, 1, 2), KEMOTUIKI_BAD_ROW_COUNT, SIZE_MAX, 0);
        EXPECT(KemotuikiRows, upper_rows, (n, SIZE_MAX, NULL, 0, NULL, 0, NULL, 0), KEMOTUIKI_BAD_ROW_COUNT, SIZE_MAX, 0);
        EXPECT(KemotuikiRows, route, (n, 2 * n - 2, NULL, 0, NULL, 0, 1, NULL, 0), KEMOTUIKI_BAD_ROW_COUNT, 2 * n - 2, 0);
        EXPECT(KemotuikiBytes, write_links, (SIZE_MAX, n, n - 1, NULL, 0, NULL, 0, NULL, 0), KEMOTUIKI_BAD_ROW_COUNT, n - 1, 0);
        EXPECT(KemotuikiBytes, write_newick, (n, SIZE_MAX, NULL, 0, NULL, 0, NULL, 0), KEMOTUIKI_BAD_ROW_COUNT, SIZE_MAX, 0);
        EXPECT(KemotuikiBytes, write_newick, (n, n, NULL, 0, NULL, 0, NULL, 0), KEMOTUIKI_BAD_LENGTH, 0, 0);
        EXPECT(KemotuikiComparison, compare, (n, NULL, 0, NULL, 0), KEMOTUIKI_BAD_LENGTH, 0, 1);
        EXPECT(KemotuikiRows, consensus, (n, 1, NULL, 0, NULL, 0, NULL, 0), KEMOTUIKI_BAD_LENGTH, 0, 0);
        EXPECT(KemotuikiRows, consensus, (n, KEMOTUIKI_TABLES, NULL, 0, NULL, 0, NULL, 0), KEMOTUIKI_BAD_LENGTH, 0, 0);
        EXPECT(KemotuikiReplay, replay, (n, NULL, 0, NULL, 0, NULL, 0, NULL, 0), KEMOTUIKI_BAD_LENGTH, 0, 0);
    }
    EXPECT(KemotuikiReport, report, (NULL, 0, NULL, 0, NULL, 0, NULL, 0), KEMOTUIKI_NO_ROOM, 0, 0);
}

/* Numbers of tables that no team has; with 4 images and some of them the number of entries would be 0 or 16 after an overflow. */
static void no_team(void) {
    static const size_t bad[] = {0, 17, 18, (size_t)1 << 60, ((size_t)1 << 60) + 1, (size_t)1 << 63, SIZE_MAX};
    static const uint32_t zeros[16];
    for (size_t k = 0; k < sizeof bad / sizeof *bad; k++) {
        EXPECT(KemotuikiRows, consensus, (4, bad[k], NULL, 0, NULL, 0, NULL, 0), KEMOTUIKI_BAD_TABLE_COUNT, 0, 0);
        EXPECT(KemotuikiRows, consensus, (4, bad[k], zeros, 16, NULL, 0, NULL, 0), KEMOTUIKI_BAD_TABLE_COUNT, 0, 0);
    }
    EXPECT(KemotuikiRows, consensus, (4, 1, zeros, 16, NULL, 0, NULL, 0), KEMOTUIKI_NO_ROOM, 0, 0);
}

/* No bytes, read at any position; an empty batch, which is accepted; no bytes to convert, none to choose from, and no text. */
static void no_bytes(void) {
    static const size_t positions[] = {0, 1, 7, 8, 9, (size_t)1 << 61, (size_t)1 << 63, SIZE_MAX - 7, SIZE_MAX};
    for (size_t k = 0; k < sizeof positions / sizeof *positions; k++) {
        EXPECT(KemotuikiCosts, read_costs, (NULL, 0, positions[k], NULL, 0), KEMOTUIKI_BYTES_END, 0, 0);
        EXPECT(KemotuikiLinks, read_links, (NULL, 0, positions[k], NULL, 0, NULL, 0), KEMOTUIKI_BYTES_END, 0, 0);
    }
    for (size_t f = 0; f < sizeof forms / sizeof *forms; f++) {
        EXPECT(KemotuikiBytes, write_batch, (forms[f], NULL, 0, NULL, 0, NULL, 0, NULL, 0, NULL, 0), KEMOTUIKI_ACCEPTED, 0, 0);
        EXPECT(KemotuikiBytes, convert_costs, (forms[f], NULL, 0, NULL, 0), KEMOTUIKI_BYTES_END, 0, 0);
        EXPECT(KemotuikiBytes, convert_links, (forms[f], NULL, 0, NULL, 0), KEMOTUIKI_BYTES_END, 0, 0);
    }
    EXPECT(KemotuikiChoice, choice, (NULL, 0, NULL, 0), KEMOTUIKI_BYTES_END, 0, 1);
    EXPECT(KemotuikiTree, read_newick, (NULL, 0, NULL, 0, NULL, 0), KEMOTUIKI_OUTSIDE_PROFILE, 1, 0);
}

/*
 * The longest tables of each form, with every number at the form's limit, in exactly the room that the header has for them and in one
 * byte less; and what becomes of them in the other form.
 */
static void longest_tables(void) {
    static uint32_t t[KEMOTUIKI_IMAGES * KEMOTUIKI_IMAGES], costs[KEMOTUIKI_ROWS];
    static uint64_t fars[KEMOTUIKI_ROWS];
    static uint8_t bytes[KEMOTUIKI_COST_BYTES], again[KEMOTUIKI_COST_BYTES];
    const size_t n = KEMOTUIKI_IMAGES, rows = KEMOTUIKI_ROWS, all = n * n;
    size_t k = 0;
    for (size_t i = 1; i < n; i++) {
        fars[k++] = (uint64_t)1 << i;
        if (i > 1) fars[k++] = (uint64_t)-1 >> (63 - i) & ~(uint64_t)1;
    }
    for (size_t f = 0; f < sizeof forms / sizeof *forms; f++) {
        size_t form = forms[f], cost_bytes = form ? KEMOTUIKI_COST_BYTES : KEMOTUIKI_OLD_COST_BYTES;
        size_t link_bytes = form ? KEMOTUIKI_LINK_BYTES : KEMOTUIKI_OLD_LINK_BYTES;
        uint32_t most = form ? KEMOTUIKI_ENTRY_LIMIT : KEMOTUIKI_OLD_ENTRY_LIMIT;
        call_name = "the longest tables";
        for (size_t i = 0; i < all; i++) t[i] = i / n == i % n ? 0 : most;
        for (size_t i = 0; i < rows; i++) costs[i] = 2 * most;
        EXPECT(KemotuikiBytes, write_costs, (form, n, t, all, bytes, cost_bytes - 1), KEMOTUIKI_NO_ROOM, 0, 0);
        EXPECT(KemotuikiBytes, write_links, (form, n, rows, fars, rows, costs, rows, bytes, link_bytes - 1), KEMOTUIKI_NO_ROOM, 0, 0);
        KemotuikiBytes r = kemotuiki_write_costs(form, n, t, all, bytes, cost_bytes);
        if (r.number || r.used != cost_bytes) fault("the room for costs is not what the header has");
        r = kemotuiki_convert_costs(form, bytes, cost_bytes, again, cost_bytes);
        if (r.number || r.used != cost_bytes || memcmp(again, bytes, cost_bytes)) fault("costs converted to their own form differ");
        r = kemotuiki_convert_costs(KEMOTUIKI_OLD_FORM, bytes, cost_bytes, again, cost_bytes);
        if (form ? r.number != KEMOTUIKI_ABOVE_OLD_LIMITS || r.a != 1 || r.b != 2 : r.number) fault("costs converted to the old form");
        r = kemotuiki_write_links(form, n, rows, fars, rows, costs, rows, bytes, link_bytes);
        if (r.number || r.used != link_bytes) fault("the room for links is not what the header has");
        r = kemotuiki_convert_links(KEMOTUIKI_OLD_FORM, bytes, link_bytes, again, link_bytes);
        if (form ? r.number != KEMOTUIKI_ABOVE_OLD_LIMITS || r.a != 1 || r.b != 0 : r.number) fault("links converted to the old form");
        r = kemotuiki_convert_links(KEMOTUIKI_NEW_FORM, bytes, link_bytes, again, KEMOTUIKI_LINK_BYTES);
        if (r.number || r.used != KEMOTUIKI_LINK_BYTES) fault("links converted to the new form");
    }
}

/* ---- images that cost nothing ---- */

/* Two tables of document 01, which are accepted; in the third image 1 stands between the two others, and its own link costs 0. */
static const uint32_t three[] = {0, 1, 1, 1, 0, 1, 1, 1, 0};
static const uint32_t four[] = {0, 2, 4, 4, 2, 0, 4, 4, 4, 4, 0, 2, 4, 4, 2, 0};
static const uint32_t between[] = {0, 1, 1, 1, 0, 2, 1, 2, 0};

/* Tables with a zero off the diagonal, the first of them document 01's B, and the pair that is named. */
static const struct {
    size_t n;
    uint32_t t[16];
    size_t row, column;
} untimed[] = {
    {3, {0}, 1, 2},
    {3, {0, 0, 1, 0, 0, 1, 1, 1, 0}, 1, 2},
    {3, {0, 1, 0, 1, 0, 1, 0, 1, 0}, 1, 3},
    {3, {0, 1, 2, 1, 0, 0, 2, 0, 0}, 2, 3},
    {4, {0, 1, 1, 0, 1, 0, 0, 1, 1, 0, 0, 1, 0, 1, 1, 0}, 1, 4},
    {4, {0, 1000001, 9, 9, 1000001, 0, 9, 0, 9, 9, 0, 0, 9, 0, 0, 0}, 2, 4},
};

/* The bytes of a table in a form, bit by bit, whatever its entries are; how many there are. */
static size_t store_bits(size_t form, size_t n, const uint32_t *t, uint8_t *bytes) {
    size_t count = 0, width = form ? 23 : 20;
    memset(bytes, 0, 32);
    for (size_t k = 0; form && k < 7; k++, count++) bytes[count / 8] |= (uint8_t)(128 >> count % 8);
    for (size_t k = 7; k-- > 0; count++) bytes[count / 8] |= (uint8_t)((n >> k & 1) << (7 - count % 8));
    for (size_t i = 0; i < n; i++)
        for (size_t j = i + 1; j < n; j++)
            for (size_t k = width; k-- > 0; count++) bytes[count / 8] |= (uint8_t)((t[i * n + j] >> k & 1) << (7 - count % 8));
    return (count + 7) / 8;
}

#define EXPECT_ZERO(Kind, name, arguments, table) \
    do { \
        Kind r = kemotuiki_##name arguments; \
        expect_at(#name, &r, sizeof r / sizeof(size_t), KEMOTUIKI_ZERO_OFF_DIAGONAL, row, column, table); \
    } while (0)

/* Every call that takes such a table: 20, before a far side, images, a wiring or room for bytes is asked for. A good table stands beside. */
static void refuse_table(size_t n, const uint32_t *t, const uint32_t *good, size_t row, size_t column) {
    const size_t all = n * n, room = 2 * n - 3;
    uint32_t joined[3 * 16];
    uint8_t event = 0;
    Lent lo;
    Rows w;
    uint32_t *out = lend(&lo, n, 4);
    keep(&lo);
    lend_rows(&w, room, room);
    EXPECT_ZERO(KemotuikiIndex, index, (n, t, all, 2), 0);
    EXPECT_ZERO(KemotuikiIndex, index, (n, t, all, 0), 0);
    EXPECT_ZERO(KemotuikiOrder, order, (n, t, all, 1, 2, out, n), 0);
    EXPECT_ZERO(KemotuikiOrder, order, (n, t, all, SIZE_MAX, 0, out, n), 0);
    EXPECT_ZERO(KemotuikiRows, measured, (n, t, all, ROWS(w)), 0);
    EXPECT_ZERO(KemotuikiRows, exact, (n, t, all, ROWS(w)), 0);
    EXPECT_ZERO(KemotuikiRows, exact_grafted, (n, t, all, ROWS(w)), 0);
    EXPECT_ZERO(KemotuikiLevels, levels, (n, t, all, ROWS(w)), 0);
    EXPECT_ZERO(KemotuikiReplay, replay, (n, t, all, NULL, 0, ROWS(w)), 0);
    EXPECT_ZERO(KemotuikiReplay, replay, (n, t, all, &event, 1, ROWS(w)), 0);
    EXPECT_ZERO(KemotuikiComparison, compare, (n, t, all, good, all), 1);
    EXPECT_ZERO(KemotuikiComparison, compare, (n, good, all, t, all), 2);
    EXPECT_ZERO(KemotuikiComparison, compare, (n, t, all, t, all), 1);
    EXPECT_ZERO(KemotuikiRows, consensus, (n, 1, t, all, ROWS(w)), 1);
    for (size_t place = 0; place < 3; place++) {
        for (size_t k = 0; k < 3; k++) memcpy(joined + k * all, k == place ? t : good, all * sizeof *t);
        EXPECT_ZERO(KemotuikiRows, consensus, (n, 3, joined, 3 * all, ROWS(w)), place + 1);
    }
    for (size_t f = 0; f < sizeof forms / sizeof *forms; f++) EXPECT_ZERO(KemotuikiBytes, write_costs, (forms[f], n, t, all, NULL, 0), 0);
    EXPECT(KemotuikiRows, measured, (n, t, all, w.fars, room - 1, w.costs, room), KEMOTUIKI_NO_ROOM, 0, 0);
    EXPECT(KemotuikiLevels, levels, (n, t, all, w.fars, n - 1, w.costs, n - 2), KEMOTUIKI_NO_ROOM, 0, 0);
    EXPECT(KemotuikiOrder, order, (n, t, all, 1, 2, out, n - 1), KEMOTUIKI_NO_ROOM, 0, 0);
    settle(&lo, 0);
    settle_rows(&w, 0);
}

/* Every call that reads such a table in a stored form, at its front and behind a good one; a fill bit, and too few bytes, come before it. */
static void refuse_stored(size_t form, size_t n, const uint32_t *t, size_t row, size_t column) {
    uint8_t bytes[64];
    Lent lb, lo;
    Sides w;
    size_t front = store_bits(KEMOTUIKI_NEW_FORM, 3, three, bytes), used = store_bits(form, n, t, bytes + front), whole = front + used;
    const uint8_t *stream = lend_bytes(&lb, bytes, whole);
    uint32_t *out = lend(&lo, n * n, 4);
    keep(&lo);
    lend_sides(&w, KEMOTUIKI_REPORT_SIDES, KEMOTUIKI_REPORT_SIDES, KEMOTUIKI_REPORT_SIDES);
    EXPECT_ZERO(KemotuikiCosts, read_costs, (stream, whole, 8 * front, out, n * n), 0);
    EXPECT(KemotuikiCosts, read_costs, (stream, whole, 8 * front, out, n * n - 1), KEMOTUIKI_NO_ROOM, 0, 0);
    EXPECT(KemotuikiCosts, read_costs, (stream, whole - 1, 8 * front, out, n * n), KEMOTUIKI_BYTES_END, 0, 0);
    for (size_t f = 0; f < sizeof forms / sizeof *forms; f++)
        EXPECT_ZERO(KemotuikiBytes, convert_costs, (forms[f], stream + front, used, NULL, 0), 0);
    EXPECT_ZERO(KemotuikiReport, report, (stream + front, used, SIDES(w)), 1);
    KemotuikiReport r = kemotuiki_report(stream, whole, SIDES(w));
    KemotuikiReport want = {KEMOTUIKI_ZERO_OFF_DIAGONAL, 2, row, column, 0, 0, 3, 1, 1, 0, 0, 0, 0, 0, front};
    if (memcmp(&r, &want, sizeof r)) fault("not what is answered to a second table with a zero");
    bytes[whole - 1] |= 1;
    if (n == 3) EXPECT(KemotuikiBytes, convert_costs, (form, bytes + front, used, NULL, 0), KEMOTUIKI_FILL_NOT_ZERO, 0, 0);
    settle_sides(&w, 0);
    settle(&lo, 0);
    settle(&lb, 0);
}

static void images_that_cost_nothing(void) {
    for (size_t k = 0; k < sizeof untimed / sizeof *untimed; k++) {
        size_t n = untimed[k].n, row = untimed[k].row, column = untimed[k].column;
        int fits_old = untimed[k].t[1] <= KEMOTUIKI_OLD_ENTRY_LIMIT;
        refuse_table(n, untimed[k].t, n == 3 ? three : four, row, column);
        refuse_stored(KEMOTUIKI_NEW_FORM, n, untimed[k].t, row, column);
        if (fits_old) refuse_stored(KEMOTUIKI_OLD_FORM, n, untimed[k].t, row, column);
    }
}

/* The table in which image 1 stands between the others: every call takes it but the levels, which it has not, and the own link of 0 is read,
 * stored and converted. */
static void own_link_of_nothing(void) {
    static const uint64_t sides[] = {2, 4, 6};
    static const uint32_t links[] = {2, 2, 0};
    uint8_t bytes[32], again[32], wanted[32];
    uint32_t out[9];
    call_name = "an own link of cost 0";
    KemotuikiIndex i = kemotuiki_index(3, between, 9, 6);
    if (i.number || i.signed_index) fault("its index is not 0");
    if (kemotuiki_order(3, between, 9, 1, 3, out, 3).number) fault("there is no order");
    if (kemotuiki_compare(3, between, 9, three, 9).number) fault("it is not compared");
    Reading *const readings[] = {kemotuiki_measured, kemotuiki_exact, kemotuiki_exact_grafted};
    for (size_t k = 0; k < 5; k++) {
        Rows w;
        lend_rows(&w, 3, 3);
        size_t rows = k < 3 ? readings[k](3, between, 9, ROWS(w)).rows
                    : k < 4 ? kemotuiki_consensus(3, 1, between, 9, ROWS(w)).rows : kemotuiki_replay(3, between, 9, NULL, 0, ROWS(w)).rows;
        if (rows != 3 || !same_rows(3, sides, links, &w)) fault("it is not read as its rows");
        settle_rows(&w, rows);
    }
    for (size_t form = 0; form < 2; form++) {
        size_t used = store_bits(form, 3, between, wanted);
        KemotuikiBytes b = kemotuiki_write_costs(form, 3, between, 9, bytes, used);
        if (b.number || b.used != used || memcmp(bytes, wanted, used)) fault("it is not stored bit by bit");
        KemotuikiCosts c = kemotuiki_read_costs(bytes, used, 0, out, 9);
        if (c.number || memcmp(out, between, sizeof between)) fault("it is not read back");
        if (kemotuiki_convert_costs(!form, bytes, used, again, sizeof again).number) fault("it is not converted");
    }
}

/* ---- Newick text ---- */

/* Texts, and what is answered where there are 125 places: the images of one that is accepted, or the refusal and its place. */
static const struct {
    const char *text;
    size_t number, place, n, rows;
} newicks[] = {
    {"(1:2,2:2,3:2,4:2);", 0, 0, 4, 4},
    {"(1:2,2:2,(3:2,4:2):4);", 0, 0, 4, 5},
    {"(1:0,2:0,3:0);", 0, 0, 3, 3},
    {"(1:16000000,2:16000000,3:16000000);", 0, 0, 3, 3},
    {"(1:1,(2:1,3:1):1,(4:1,5:1):1);", 0, 0, 5, 7},
    {"(", KEMOTUIKI_OUTSIDE_PROFILE, 2, 0, 0},
    {"(2:1,1:1,3:1);", KEMOTUIKI_OUTSIDE_PROFILE, 2, 0, 0},
    {"((1:1,2:1):1,3:1,4:1);", KEMOTUIKI_OUTSIDE_PROFILE, 2, 0, 0},
    {"(10:1,1:1,2:1);", KEMOTUIKI_OUTSIDE_PROFILE, 3, 0, 0},
    {"(1,2,3);", KEMOTUIKI_OUTSIDE_PROFILE, 3, 0, 0},
    {"(1:02,2:2,3:2);", KEMOTUIKI_OUTSIDE_PROFILE, 5, 0, 0},
    {"(1:2.5,2:2,3:2);", KEMOTUIKI_OUTSIDE_PROFILE, 5, 0, 0},
    {"(1:2, 2:2,3:2);", KEMOTUIKI_OUTSIDE_PROFILE, 6, 0, 0},
    {"(1:2,02:2,3:2);", KEMOTUIKI_OUTSIDE_PROFILE, 6, 0, 0},
    {"(1:2,100:2,3:2);", KEMOTUIKI_OUTSIDE_PROFILE, 8, 0, 0},
    {"(1:2,2:2);", KEMOTUIKI_OUTSIDE_PROFILE, 9, 0, 0},
    {"(1:2,(2:2):2,3:2);", KEMOTUIKI_OUTSIDE_PROFILE, 10, 0, 0},
    {"(1:2,2:100000000,3:2);", KEMOTUIKI_OUTSIDE_PROFILE, 16, 0, 0},
    {"(1:2,(2:2,3:2)4:2,5:2);", KEMOTUIKI_OUTSIDE_PROFILE, 15, 0, 0},
    {"(1:2,2:2,3:2):0;", KEMOTUIKI_OUTSIDE_PROFILE, 14, 0, 0},
    {"(1:2,2:2,3:2)", KEMOTUIKI_OUTSIDE_PROFILE, 14, 0, 0},
    {"(1:2,2:2,3:2);\n", KEMOTUIKI_OUTSIDE_PROFILE, 15, 0, 0},
    {"(1:2,2:2,\xb2:2);", KEMOTUIKI_OUTSIDE_PROFILE, 10, 0, 0},
    {"(1:2,2:2,1:2);", KEMOTUIKI_OWN_LINK_MISSING, 3, 0, 0},
    {"(1:2,65:2,99:2);", KEMOTUIKI_OWN_LINK_MISSING, 2, 0, 0},
    {"(1:16000001,3:0,2:0);", KEMOTUIKI_BAD_ROW, 3, 0, 0},
    {"(1:0,(4:99999999,3:0):0,2:0);", KEMOTUIKI_BAD_ROW, 3, 0, 0},
    {"(1:0,(3:0,4:0):0,2:0);", KEMOTUIKI_BAD_ROW, 4, 0, 0},
    {"(1:2,4:2,2:2,3:2);", KEMOTUIKI_SIBLINGS_OUT_OF_ORDER, 10, 0, 0},
    {"(1:0,6:0,((5:0,4:0):1,3:0):1,2:0);", KEMOTUIKI_SIBLINGS_OUT_OF_ORDER, 10, 0, 0},
    {"(1:0,(2:0,3:0):1,((7:0,6:0):1,5:0):1,4:0);", KEMOTUIKI_SIBLINGS_OUT_OF_ORDER, 24, 0, 0},
};

/* Each of them from a lent buffer without a byte behind it; one that is accepted also with one place less, which is one too few. */
static void newick_texts(void) {
    for (size_t k = 0; k < sizeof newicks / sizeof *newicks; k++) {
        size_t length = strlen(newicks[k].text), number = newicks[k].number, n = newicks[k].n;
        Lent lt;
        Rows w;
        call_name = newicks[k].text;
        char *text = memcpy(lend(&lt, length, 1), newicks[k].text, length);
        keep(&lt);
        for (size_t short_by = 0; short_by < (number ? 1 : 3); short_by++) {
            size_t room = number ? KEMOTUIKI_ROWS : 2 * n - 3;
            lend_rows(&w, room - (short_by == 1), room - (short_by == 2));
            KemotuikiTree r = kemotuiki_read_newick(text, length, ROWS(w));
            KemotuikiTree want = {number, 0, newicks[k].place, 0, 0, 0, n, newicks[k].rows};
            KemotuikiTree no_room = {KEMOTUIKI_NO_ROOM, 0, 0, 0, 0, 0, 0, 0};
            if (memcmp(&r, short_by ? &no_room : &want, sizeof r)) fault("not what is answered to this text");
            if (!r.number) hold_newick(r.n, r.rows, w.fars, w.costs, text, length);
            settle_rows(&w, r.rows);
        }
        settle(&lt, 0);
    }
}

/*
 * The longest text, in the room that the header has for it and in one byte less, and its 62 brackets: a caterpillar of all images with
 * costs of eight digits. A 63rd bracket is refused at its place, and one image more by their count.
 */
static void longest_newick(void) {
    static uint32_t costs[KEMOTUIKI_ROWS];
    static uint64_t fars[KEMOTUIKI_ROWS];
    static char text[KEMOTUIKI_NEWICK_BYTES + 64];
    const size_t n = KEMOTUIKI_IMAGES, rows = KEMOTUIKI_ROWS, used = KEMOTUIKI_NEWICK_BYTES;
    size_t k = 0, length;
    for (size_t i = 1; i < n; i++) {
        fars[k++] = (uint64_t)1 << i;
        if (i > 1) fars[k++] = (uint64_t)-1 >> (63 - i) & ~(uint64_t)1;
    }
    for (size_t i = 0; i < rows; i++) costs[i] = 2 * KEMOTUIKI_ENTRY_LIMIT;
    EXPECT(KemotuikiBytes, write_newick, (n, rows, fars, rows, costs, rows, text, used - 1), KEMOTUIKI_NO_ROOM, 0, 0);
    if (text[0]) fault("a byte was altered where there is too little room");
    call_name = "the longest Newick text";
    KemotuikiBytes r = kemotuiki_write_newick(n, rows, fars, rows, costs, rows, text, used);
    if (r.number || r.used != used) fault("the room for Newick text is not what the header has");
    hold_newick(n, rows, fars, costs, text, used);
    EXPECT(KemotuikiTree, read_newick, (text, used - 1, fars, rows, costs, rows), KEMOTUIKI_OUTSIDE_PROFILE, used, 0);
    EXPECT(KemotuikiTree, read_newick, (text, used, fars, rows - 1, costs, rows), KEMOTUIKI_NO_ROOM, 0, 0);
    length = used - 2;
    memcpy(text + length, ",65:1);", 7);
    EXPECT(KemotuikiTree, read_newick, (text, length + 7, NULL, 0, NULL, 0), KEMOTUIKI_BAD_N, 65, 0);
    for (length = 0, k = 0; k < 62; k++) length += (size_t)sprintf(text + length, k ? "(%d:1," : "(1:1,", 1 + (int)(k % 9));
    text[length] = '(';
    EXPECT(KemotuikiTree, read_newick, (text, length + 1, NULL, 0, NULL, 0), KEMOTUIKI_OUTSIDE_PROFILE, length + 1, 0);
    text[length] = '9';
    EXPECT(KemotuikiTree, read_newick, (text, length + 1, NULL, 0, NULL, 0), KEMOTUIKI_OUTSIDE_PROFILE, length + 2, 0);
}

/* ---- images that leave ---- */

/* Five images of which 2 and 4 share a switch. */
static const uint32_t five[] = {0, 4, 2, 4, 2, 4, 0, 4, 2, 4, 2, 4, 0, 4, 2, 4, 2, 4, 0, 4, 2, 4, 2, 4, 0};

/* Replays, and what is answered to each: the refusal of an event and its place, the images and rows that are left, and the event. */
static const struct {
    size_t n;
    const uint32_t *t;
    size_t count;
    uint8_t events[4];
    size_t number, place, images, rows, event;
    uint64_t fars[6];
    uint32_t costs[6];
} replays[] = {
    {3, three, 0, {0}, 0, 0, 3, 3, 0, {2, 4, 6}, {1, 1, 1}},
    {3, three, 1, {1}, KEMOTUIKI_BAD_N, 2, 3, 3, 1, {2, 4, 6}, {1, 1, 1}},
    {3, three, 1, {3}, KEMOTUIKI_BAD_N, 2, 3, 3, 1, {2, 4, 6}, {1, 1, 1}},
    {3, three, 2, {4, 1}, KEMOTUIKI_BAD_IMAGE, 0, 3, 3, 1, {2, 4, 6}, {1, 1, 1}},
    {3, three, 1, {0}, KEMOTUIKI_BAD_IMAGE, 0, 3, 3, 1, {2, 4, 6}, {1, 1, 1}},
    {4, four, 0, {0}, 0, 0, 4, 5, 0, {2, 4, 8, 12, 14}, {2, 2, 2, 4, 2}},
    {4, four, 1, {1}, 0, 0, 3, 3, 0, {2, 4, 6}, {2, 2, 6}},
    {4, four, 1, {2}, 0, 0, 3, 3, 0, {2, 4, 6}, {2, 2, 6}},
    {4, four, 1, {3}, 0, 0, 3, 3, 0, {2, 4, 6}, {2, 6, 2}},
    {4, four, 1, {4}, 0, 0, 3, 3, 0, {2, 4, 6}, {2, 6, 2}},
    {4, four, 1, {5}, KEMOTUIKI_BAD_IMAGE, 0, 4, 5, 1, {2, 4, 8, 12, 14}, {2, 2, 2, 4, 2}},
    {4, four, 2, {1, 3}, KEMOTUIKI_BAD_N, 2, 3, 3, 2, {2, 4, 6}, {2, 2, 6}},
    {4, four, 3, {1, 4, 1}, KEMOTUIKI_BAD_IMAGE, 0, 3, 3, 2, {2, 4, 6}, {2, 2, 6}},
    {4, four, 4, {255, 1, 1, 0}, KEMOTUIKI_BAD_IMAGE, 0, 4, 5, 1, {2, 4, 8, 12, 14}, {2, 2, 2, 4, 2}},
    {5, five, 0, {0}, 0, 0, 5, 6, 0, {2, 4, 8, 10, 16, 30}, {2, 2, 2, 4, 2, 2}},
    {5, five, 1, {1}, 0, 0, 4, 5, 0, {2, 4, 8, 10, 14}, {2, 2, 2, 4, 2}},
    {5, five, 1, {2}, 0, 0, 4, 4, 0, {2, 4, 8, 14}, {2, 6, 2, 2}},
    {5, five, 1, {4}, 0, 0, 4, 4, 0, {2, 4, 8, 14}, {6, 2, 2, 2}},
    {5, five, 2, {1, 3}, 0, 0, 3, 3, 0, {2, 4, 6}, {2, 2, 6}},
    {5, five, 2, {5, 5}, KEMOTUIKI_BAD_IMAGE, 0, 4, 5, 2, {2, 4, 8, 10, 14}, {2, 2, 2, 4, 2}},
    {5, five, 3, {1, 3, 3}, KEMOTUIKI_BAD_N, 2, 3, 3, 3, {2, 4, 6}, {2, 2, 6}},
    {5, five, 4, {1, 3, 4, 9}, KEMOTUIKI_BAD_IMAGE, 0, 3, 3, 3, {2, 4, 6}, {2, 2, 6}},
};

/* Each of them in just enough room, and with one place less of either kind, where the start is refused; without events, they are null. */
static void replays_by_hand(void) {
    call_name = "replay";
    for (size_t k = 0; k < sizeof replays / sizeof *replays; k++)
        for (size_t short_by = 0; short_by < 3; short_by++) {
            size_t n = replays[k].n, room = 2 * n - 3, count = replays[k].count;
            Lent le;
            Rows w;
            uint8_t *events = memcpy(lend(&le, count, 1), replays[k].events, count);
            keep(&le);
            lend_rows(&w, room - (short_by == 1), room - (short_by == 2));
            KemotuikiReplay r = kemotuiki_replay(n, replays[k].t, n * n, count ? events : NULL, count, ROWS(w));
            KemotuikiReplay want = {replays[k].number, 0, replays[k].place, 0, 0, 0, replays[k].images, replays[k].rows, replays[k].event};
            KemotuikiReplay no_room = {KEMOTUIKI_NO_ROOM, 0, 0, 0, 0, 0, 0, 0, 0};
            if (memcmp(&r, short_by ? &no_room : &want, sizeof r) || !same_rows(r.rows, replays[k].fars, replays[k].costs, &w))
                fprintf(stderr, "%s: not what is answered to line %zu\n", call_name, k + 1), faults++;
            settle(&le, 0);
            settle_rows(&w, r.rows);
        }
}

/*
 * All images but three leave a line of 64 that is as long as an entry may be, so that own links cost 0 and joined rows cost nearly the
 * limit: always the first, always the last, or one in between. Every trace is replayed up to each of its events, and two further than
 * the one that is refused.
 */
static void longest_replays(void) {
    static uint32_t t[KEMOTUIKI_IMAGES * KEMOTUIKI_IMAGES];
    const size_t n = KEMOTUIKI_IMAGES, most = n - 3, step = KEMOTUIKI_ENTRY_LIMIT / (n - 1);
    uint8_t events[KEMOTUIKI_IMAGES];
    call_name = "the longest replays";
    for (size_t i = 0; i < n; i++)
        for (size_t j = 0; j < i; j++) t[i * n + j] = t[j * n + i] = (uint32_t)(i < n - 1 ? (i - j) * step : KEMOTUIKI_ENTRY_LIMIT - j * step);
    for (size_t kind = 0; kind < 3; kind++) {
        for (size_t k = 0; k < n; k++) events[k] = (uint8_t)(kind == 0 || k > most ? 1 : kind == 1 ? n - k : 1 + 37 * k % (n - k));
        for (size_t count = 0; count <= n; count++) {
            size_t taken = count < most ? count : most;
            Rows w;
            lend_rows(&w, KEMOTUIKI_ROWS, KEMOTUIKI_ROWS);
            KemotuikiReplay r = kemotuiki_replay(n, t, n * n, events, count, ROWS(w));
            KemotuikiReplay want = {0, 0, 0, 0, 0, 0, n - taken, r.rows, 0};
            if (count > most) want.number = KEMOTUIKI_BAD_N, want.a = 2, want.event = most + 1;
            if (memcmp(&r, &want, sizeof r)) fault("not as many images are left, or another event was refused");
            hold_replay(n, t, events, taken, &w, r);
            settle_rows(&w, r.rows);
        }
    }
}

/* ---- term reports by hand ---- */

/*
 * Cost tables by a letter, in the old form, and by the small letter in the new one. A to G are those of document 01; H and I are E with
 * images 2 and 4, or 2 and 3, on one side. X is A with an entry that has all its upper bits, and Y is E whose last two images cost
 * nothing. A writer refuses B and Y, so the bytes are made here.
 */
static const struct {
    char letter;
    size_t n;
    uint32_t entries[6];
} lettered[] = {
    {'A', 3, {1, 1, 1}},          {'B', 3, {0, 0, 0}},          {'C', 3, {1, 1, 3}},          {'D', 3, {1, 1, 2}},
    {'E', 4, {2, 4, 4, 4, 4, 2}}, {'F', 4, {2, 3, 4, 4, 4, 2}}, {'G', 4, {2, 2, 2, 2, 2, 2}}, {'H', 4, {4, 2, 4, 4, 2, 4}},
    {'I', 4, {4, 4, 2, 2, 4, 4}}, {'X', 3, {1, 1, 1}},          {'Y', 4, {2, 4, 4, 4, 4, 0}},
};

/* The stored table of a letter, at the end of so many bytes; how many there are then. */
static size_t put_letter(char letter, uint8_t *bytes, size_t count) {
    uint32_t t[16] = {0};
    size_t k = 0, e = 0, form = letter >= 'a' ? KEMOTUIKI_NEW_FORM : KEMOTUIKI_OLD_FORM;
    while ((lettered[k].letter ^ letter) & 31) k++;
    size_t n = lettered[k].n;
    for (size_t i = 0; i < n; i++)
        for (size_t j = i + 1; j < n; j++) t[i * n + j] = t[j * n + i] = lettered[k].entries[e++];
    size_t used = store_bits(form, n, t, bytes + count);
    if (lettered[k].letter == 'X' && form) bytes[count + 4] |= 0x07, bytes[count + 5] = 0xFF;
    if (lettered[k].letter == 'X' && !form) bytes[count + 3] |= 0x1F;
    return count + used;
}

/* Letters are stored tables; - takes the last byte away, + sets its last bit, . is a byte of n 0, and ? one of 127 alone. */
static size_t put_stream(const char *stream, uint8_t *bytes) {
    size_t count = 0;
    for (; *stream; stream++) {
        if (*stream == '-') count--;
        else if (*stream == '+') bytes[count - 1] |= 1;
        else if (*stream == '.') bytes[count++] = 0;
        else if (*stream == '?') bytes[count++] = 254;
        else count = put_letter(*stream, bytes, count);
    }
    return count;
}

/* Streams, and what is answered to each; then the far sides seen, in how many trees each is, and the sums. */
static const struct {
    const char *stream;
    KemotuikiReport r;
    uint64_t fars[3];
    uint32_t trees[3];
    uint64_t sums[3];
} reports[] = {
    {"", {0, 0, 0, 0, 0, 0, 0, 0, 0, 0, 0, 0, 0, 0, 0}, {0}, {0}, {0}},
    {"A", {0, 0, 0, 0, 0, 0, 3, 1, 1, 0, 0, 0, 0, 0, 9}, {0}, {0}, {0}},
    {"a", {0, 0, 0, 0, 0, 0, 3, 1, 1, 0, 0, 0, 0, 0, 11}, {0}, {0}, {0}},
    {"C", {0, 0, 0, 0, 0, 0, 3, 1, 0, 1, 0, 0, 0, 0, 9}, {0}, {0}, {0}},
    {"ADCA", {0, 0, 0, 0, 0, 0, 3, 4, 3, 1, 0, 2, 0, 0, 36}, {0}, {0}, {0}},
    {"E", {0, 0, 0, 0, 0, 0, 4, 1, 1, 0, 1, 0, 0, 0, 16}, {12}, {1}, {4}},
    {"EFGE", {0, 0, 0, 0, 0, 0, 4, 4, 3, 1, 1, 2, 2, 1, 64}, {12}, {2}, {8}},
    {"eFgE", {0, 0, 0, 0, 0, 0, 4, 4, 3, 1, 1, 2, 2, 1, 70}, {12}, {2}, {8}},
    {"FF", {0, 0, 0, 0, 0, 0, 4, 2, 0, 2, 0, 0, 0, 0, 32}, {0}, {0}, {0}},
    {"FEFFHF", {0, 0, 0, 0, 0, 0, 4, 6, 2, 4, 2, 1, 2, 2, 96}, {10, 12}, {1, 1}, {4, 4}},
    {"EHI", {0, 0, 0, 0, 0, 0, 4, 3, 3, 0, 3, 2, 4, 2, 48}, {6, 10, 12}, {1, 1, 1}, {4, 4, 4}},
    {"IHEGEEH", {0, 0, 0, 0, 0, 0, 4, 7, 7, 0, 3, 6, 8, 2, 112}, {6, 10, 12}, {1, 2, 3}, {4, 8, 12}},
    {".", {KEMOTUIKI_BAD_N, 1, 0, 0, 0, 0, 0, 0, 0, 0, 0, 0, 0, 0, 0}, {0}, {0}, {0}},
    {"?", {KEMOTUIKI_BYTES_END, 1, 0, 0, 0, 0, 0, 0, 0, 0, 0, 0, 0, 0, 0}, {0}, {0}, {0}},
    {"A-", {KEMOTUIKI_BYTES_END, 1, 0, 0, 0, 0, 0, 0, 0, 0, 0, 0, 0, 0, 0}, {0}, {0}, {0}},
    {"X", {KEMOTUIKI_ENTRY_TOO_LARGE, 1, 1, 3, 0, 0, 0, 0, 0, 0, 0, 0, 0, 0, 0}, {0}, {0}, {0}},
    {"E.E", {KEMOTUIKI_BAD_N, 2, 0, 0, 0, 0, 4, 1, 1, 0, 1, 0, 0, 0, 16}, {12}, {1}, {4}},
    {"E?", {KEMOTUIKI_BYTES_END, 2, 0, 0, 0, 0, 4, 1, 1, 0, 1, 0, 0, 0, 16}, {12}, {1}, {4}},
    {"EFH-", {KEMOTUIKI_BYTES_END, 3, 0, 0, 0, 0, 4, 2, 1, 1, 1, 0, 0, 0, 32}, {12}, {1}, {4}},
    {"EGH+E", {KEMOTUIKI_FILL_NOT_ZERO, 3, 0, 0, 0, 0, 4, 2, 2, 0, 1, 1, 1, 1, 32}, {12}, {1}, {4}},
    {"AX", {KEMOTUIKI_ENTRY_TOO_LARGE, 2, 1, 3, 0, 0, 3, 1, 1, 0, 0, 0, 0, 0, 9}, {0}, {0}, {0}},
    {"Ax", {KEMOTUIKI_ENTRY_TOO_LARGE, 2, 1, 3, 0, 0, 3, 1, 1, 0, 0, 0, 0, 0, 9}, {0}, {0}, {0}},
    {"EA", {KEMOTUIKI_DIFFERENT_N, 2, 0, 0, 0, 0, 4, 1, 1, 0, 1, 0, 0, 0, 16}, {12}, {1}, {4}},
    {"EC", {KEMOTUIKI_DIFFERENT_N, 2, 0, 0, 0, 0, 4, 1, 1, 0, 1, 0, 0, 0, 16}, {12}, {1}, {4}},
    {"CE", {KEMOTUIKI_DIFFERENT_N, 2, 0, 0, 0, 0, 3, 1, 0, 1, 0, 0, 0, 0, 9}, {0}, {0}, {0}},
    {"EA-", {KEMOTUIKI_BYTES_END, 2, 0, 0, 0, 0, 4, 1, 1, 0, 1, 0, 0, 0, 16}, {12}, {1}, {4}},
    {"EA+", {KEMOTUIKI_FILL_NOT_ZERO, 2, 0, 0, 0, 0, 4, 1, 1, 0, 1, 0, 0, 0, 16}, {12}, {1}, {4}},
    {"EX", {KEMOTUIKI_ENTRY_TOO_LARGE, 2, 1, 3, 0, 0, 4, 1, 1, 0, 1, 0, 0, 0, 16}, {12}, {1}, {4}},
    {"B", {KEMOTUIKI_ZERO_OFF_DIAGONAL, 1, 1, 2, 0, 0, 0, 0, 0, 0, 0, 0, 0, 0, 0}, {0}, {0}, {0}},
    {"bA", {KEMOTUIKI_ZERO_OFF_DIAGONAL, 1, 1, 2, 0, 0, 0, 0, 0, 0, 0, 0, 0, 0, 0}, {0}, {0}, {0}},
    {"YE", {KEMOTUIKI_ZERO_OFF_DIAGONAL, 1, 3, 4, 0, 0, 0, 0, 0, 0, 0, 0, 0, 0, 0}, {0}, {0}, {0}},
    {"ADCB", {KEMOTUIKI_ZERO_OFF_DIAGONAL, 4, 1, 2, 0, 0, 3, 3, 2, 1, 0, 1, 0, 0, 27}, {0}, {0}, {0}},
    {"EYE", {KEMOTUIKI_ZERO_OFF_DIAGONAL, 2, 3, 4, 0, 0, 4, 1, 1, 0, 1, 0, 0, 0, 16}, {12}, {1}, {4}},
    {"EFGy", {KEMOTUIKI_ZERO_OFF_DIAGONAL, 4, 3, 4, 0, 0, 4, 3, 2, 1, 1, 1, 1, 1, 48}, {12}, {1}, {4}},
    {"EB", {KEMOTUIKI_ZERO_OFF_DIAGONAL, 2, 1, 2, 0, 0, 4, 1, 1, 0, 1, 0, 0, 0, 16}, {12}, {1}, {4}},
    {"AY", {KEMOTUIKI_ZERO_OFF_DIAGONAL, 2, 3, 4, 0, 0, 3, 1, 1, 0, 0, 0, 0, 0, 9}, {0}, {0}, {0}},
    {"AB-", {KEMOTUIKI_BYTES_END, 2, 0, 0, 0, 0, 3, 1, 1, 0, 0, 0, 0, 0, 9}, {0}, {0}, {0}},
    {"AB+", {KEMOTUIKI_FILL_NOT_ZERO, 2, 0, 0, 0, 0, 3, 1, 1, 0, 0, 0, 0, 0, 9}, {0}, {0}, {0}},
};

/* Each of them with just enough places, with one place less of each kind, and with places to spare. No bytes are null. */
static void reports_by_hand(void) {
    static uint8_t bytes[512];
    const size_t room = KEMOTUIKI_REPORT_SIDES;
    for (size_t k = 0; k < sizeof reports / sizeof *reports; k++)
        for (size_t kind = 0; kind < 5; kind++) {
            Lent lb;
            Sides w;
            call_name = *reports[k].stream ? reports[k].stream : "a term report without bytes";
            size_t count = put_stream(reports[k].stream, bytes), more = kind == 4 ? 6 : 0;
            uint8_t *stream = lend_bytes(&lb, bytes, count);
            lend_sides(&w, room + more - (kind == 1), room + more - (kind == 2), room + more - (kind == 3));
            KemotuikiReport r = kemotuiki_report(count ? stream : NULL, count, SIDES(w));
            KemotuikiReport no_room = {KEMOTUIKI_NO_ROOM, 0, 0, 0, 0, 0, 0, 0, 0, 0, 0, 0, 0, 0, 0};
            if (memcmp(&r, kind % 4 ? &no_room : &reports[k].r, sizeof r)) fault("not what is answered to this stream");
            else if (memcmp(w.fars, reports[k].fars, r.sides * 8) || memcmp(w.trees, reports[k].trees, r.sides * 4) ||
                     memcmp(w.sums, reports[k].sums, r.sides * 8)) fault("not the far sides of this stream");
            hold_report(stream, count, r, &w);
            settle_sides(&w, r.sides);
            settle(&lb, 0);
        }
}

/* The report over a stream that was made here: what is answered, and that single calls give the same. */
static void expect_report(const char *name, const uint8_t *bytes, size_t count, KemotuikiReport want) {
    Lent lb;
    Sides w;
    call_name = name;
    const uint8_t *stream = lend_bytes(&lb, bytes, count);
    lend_sides(&w, KEMOTUIKI_REPORT_SIDES, KEMOTUIKI_REPORT_SIDES, KEMOTUIKI_REPORT_SIDES);
    KemotuikiReport r = kemotuiki_report(stream, count, SIDES(w));
    if (memcmp(&r, &want, sizeof r)) fault("not what is answered");
    hold_report(stream, count, r, &w);
    settle_sides(&w, r.sides);
    settle(&lb, 0);
}

/*
 * As many tables as a report may have and bytes behind them that are no table, which are not looked at, or one table more; one table
 * fewer, where they are. The costs are as large as those of a table can be, so that their sums have more than 32 bits.
 */
static void most_tables(void) {
    static const uint32_t far_apart[] = {0, 1, 8000000, 8000000, 1, 0, 8000000, 8000000, 8000000, 8000000, 0, 1, 8000000, 8000000, 1, 0};
    static uint8_t bytes[19 * (KEMOTUIKI_REPORT_TABLES + 1)];
    const size_t most = KEMOTUIKI_REPORT_TABLES, used = 19;
    for (size_t k = 0; k <= most; k++) kemotuiki_write_costs(KEMOTUIKI_NEW_FORM, 4, far_apart, 16, bytes + k * used, used);
    KemotuikiReport all = {0, 0, 0, 0, 0, 0, 4, most, most, 0, 1, most - 1, 0, 0, most * used};
    KemotuikiReport fewer = {KEMOTUIKI_BAD_N, most, 0, 0, 0, 0, 4, most - 1, most - 1, 0, 1, most - 2, 0, 0, (most - 1) * used};
    expect_report("as many tables as there may be", bytes, most * used, all);
    expect_report("one table more than is read", bytes, (most + 1) * used, all);
    bytes[most * used] = 0;
    expect_report("bytes behind the last table that is read", bytes, most * used + 7, all);
    memset(bytes + (most - 1) * used, 0, 2);
    expect_report("bytes that are no table where there may be one more", bytes, (most - 1) * used + 2, fewer);
    fewer.number = 0, fewer.table = 0;
    expect_report("one table fewer", bytes, (most - 1) * used, fewer);
}

/*
 * A caterpillar of 64 images in the order of their multiples of an odd number, the first and last switches and those behind the one
 * called last being one each: it has last - 1 inner far sides, and no other multiplier has any of them.
 */
static size_t put_caterpillar(size_t multiplier, size_t last, uint8_t *bytes) {
    static uint32_t t[KEMOTUIKI_IMAGES * KEMOTUIKI_IMAGES];
    const size_t n = KEMOTUIKI_IMAGES;
    for (size_t i = 0; i < n; i++)
        for (size_t j = 0; j < n; j++) {
            size_t p = i * multiplier % n, q = j * multiplier % n;
            p = p < 1 ? 1 : p > last ? last : p, q = q < 1 ? 1 : q > last ? last : q;
            t[i * n + j] = i == j ? 0 : (uint32_t)(20 * (p < q ? q - p : p - q) + 10);
        }
    return kemotuiki_write_costs(KEMOTUIKI_OLD_FORM, n, t, n * n, bytes, KEMOTUIKI_COST_BYTES).used;
}

/* Sixteen trees of 61 inner far sides and one of 48 have as many as are kept: a tree with some of these goes on, one with another ends it. */
static void most_sides(void) {
    static uint8_t bytes[20 * KEMOTUIKI_OLD_COST_BYTES];
    size_t used = 0, one = KEMOTUIKI_OLD_COST_BYTES;
    for (size_t k = 0; k < 16; k++) used += put_caterpillar(2 * k + 1, 62, bytes + used);
    used += put_caterpillar(33, 49, bytes + used);
    used += put_caterpillar(33, 17, bytes + used);
    used += put_caterpillar(35, 2, bytes + used);
    KemotuikiReport full = {0, 0, 0, 0, 0, 0, 64, 18, 18, 0, 1024, 17, 15 * 122 + (61 + 48) + (48 - 16), 122, 18 * one};
    expect_report("as many far sides as are kept", bytes, 18 * one, full);
    full.number = KEMOTUIKI_TOO_MANY_SIDES, full.table = 19;
    expect_report("one far side more than is kept", bytes, used, full);
    bytes[18 * one + one - 1] |= 1;
    full.number = KEMOTUIKI_FILL_NOT_ZERO;
    expect_report("the fill bits before the far sides", bytes, used, full);
    KemotuikiReport sixteen = {KEMOTUIKI_TOO_MANY_SIDES, 17, 0, 0, 0, 0, 64, 16, 16, 0, 976, 15, 15 * 122, 122, 16 * one};
    put_caterpillar(35, 50, bytes + 16 * one);
    expect_report("a table that is left out whole", bytes, 17 * one, sixteen);
}

/* ---- levels by hand ---- */

/* Tables, and what is answered to each: a refusal and its places, or the groups and their heights. */
static const struct {
    size_t n;
    uint32_t t[16];
    KemotuikiLevels r;
    uint64_t members[3];
    uint32_t heights[3];
} leveled[] = {
    {3, {0, 1, 1, 1, 0, 1, 1, 1, 0}, {0, 0, 0, 0, 0, 0, 1}, {7}, {1}},
    {3, {0, 1, 2, 1, 0, 2, 2, 2, 0}, {0, 0, 0, 0, 0, 0, 2}, {3, 7}, {1, 2}},
    {3, {0, 2, 1, 2, 0, 2, 1, 2, 0}, {0, 0, 0, 0, 0, 0, 2}, {5, 7}, {1, 2}},
    {3, {0, 2, 2, 2, 0, 1, 2, 1, 0}, {0, 0, 0, 0, 0, 0, 2}, {6, 7}, {1, 2}},
    {4, {0, 2, 4, 4, 2, 0, 4, 4, 4, 4, 0, 2, 4, 4, 2, 0}, {0, 0, 0, 0, 0, 0, 3}, {3, 12, 15}, {2, 2, 4}},
    {4, {0, 4, 2, 4, 4, 0, 4, 3, 2, 4, 0, 4, 4, 3, 4, 0}, {0, 0, 0, 0, 0, 0, 3}, {5, 10, 15}, {2, 3, 4}},
    {4, {0, 2, 2, 2, 2, 0, 2, 2, 2, 2, 0, 2, 2, 2, 2, 0}, {0, 0, 0, 0, 0, 0, 1}, {15}, {2}},
    {4, {0, 1, 2, 3, 1, 0, 2, 3, 2, 2, 0, 3, 3, 3, 3, 0}, {0, 0, 0, 0, 0, 0, 3}, {3, 7, 15}, {1, 2, 3}},
    {4, {0, 3, 3, 3, 3, 0, 2, 2, 3, 2, 0, 1, 3, 2, 1, 0}, {0, 0, 0, 0, 0, 0, 3}, {12, 14, 15}, {1, 2, 3}},
    {4, {0, 8000000, 8000000, 1, 8000000, 0, 8000000, 8000000, 8000000, 8000000, 0, 8000000, 1, 8000000, 8000000, 0},
     {0, 0, 0, 0, 0, 0, 2}, {9, 15}, {1, 8000000}},
    {3, {0, 1, 1, 1, 0, 3, 1, 3, 0}, {KEMOTUIKI_NO_LEVELS, 0, 1, 2, 3, 0, 0}, {0}, {0}},
    {3, {0, 1, 1, 1, 0, 2, 1, 2, 0}, {KEMOTUIKI_NO_LEVELS, 0, 1, 2, 3, 0, 0}, {0}, {0}},
    {4, {0, 2, 3, 4, 2, 0, 4, 4, 3, 4, 0, 2, 4, 4, 2, 0}, {KEMOTUIKI_NO_LEVELS, 0, 1, 2, 3, 0, 0}, {0}, {0}},
    {4, {0, 4, 9, 1, 4, 0, 9, 3, 9, 9, 0, 9, 1, 3, 9, 0}, {KEMOTUIKI_NO_LEVELS, 0, 1, 2, 4, 0, 0}, {0}, {0}},
    {4, {0, 5, 5, 5, 5, 0, 1, 2, 5, 1, 0, 3, 5, 2, 3, 0}, {KEMOTUIKI_NO_LEVELS, 0, 2, 3, 4, 0, 0}, {0}, {0}},
    {3, {0}, {KEMOTUIKI_ZERO_OFF_DIAGONAL, 0, 1, 2, 0, 0, 0}, {0}, {0}},
    {4, {0, 2, 4, 4, 2, 0, 4, 4, 4, 4, 0, 0, 4, 4, 0, 0}, {KEMOTUIKI_ZERO_OFF_DIAGONAL, 0, 3, 4, 0, 0, 0}, {0}, {0}},
    {4, {0, 1, 2, 0, 1, 0, 4, 4, 2, 4, 0, 0, 0, 4, 9, 0}, {KEMOTUIKI_ASYMMETRIC, 0, 3, 4, 0, 0, 0}, {0}, {0}},
    {4, {0, 1, 2, 0, 1, 0, 4, 4, 2, 4, 5, 0, 0, 4, 9, 0}, {KEMOTUIKI_DIAGONAL_NOT_ZERO, 0, 3, 0, 0, 0, 0}, {0}, {0}},
    {4, {0, 1, 2, 0, 1, 0, 4, 4, 2, 4, 5, 0, 0, 4, 8000001, 0}, {KEMOTUIKI_ENTRY_TOO_LARGE, 0, 4, 3, 0, 0, 0}, {0}, {0}},
};

/*
 * The levels of a table with these places for groups and heights: this is answered, and the groups stand in front. Where there are too few
 * places, nothing else is looked at but the length.
 */
static void expect_levels(size_t n, const uint32_t *t, size_t places, size_t height_places, KemotuikiLevels want, const uint64_t *members,
                          const uint32_t *heights) {
    Lent lt;
    Rows w;
    KemotuikiLevels no_room = {KEMOTUIKI_NO_ROOM, 0, 0, 0, 0, 0, 0}, bad_length = {KEMOTUIKI_BAD_LENGTH, 0, 0, 0, 0, 0, 0};
    uint32_t *table = memcpy(lend(&lt, n * n, 4), t, n * n * 4);
    keep(&lt);
    lend_rows(&w, places, height_places);
    if (places < n - 1 || height_places < n - 1) want = no_room;
    KemotuikiLevels r = kemotuiki_levels(n, table, n * n, ROWS(w));
    if (memcmp(&r, &want, sizeof r)) fault("not what is answered to this table");
    else if (!r.number && !same_rows(r.groups, members, heights, &w)) fault("not the groups of this table");
    else if (!r.number) hold_groups(n, table, r.groups, w.fars, w.costs);
    settle_rows(&w, r.groups);
    lend_rows(&w, places, height_places);
    r = kemotuiki_levels(n, table, n * n - 1, ROWS(w));
    if (memcmp(&r, &bad_length, sizeof r)) fault("one entry too few was not refused");
    settle_rows(&w, 0);
    settle(&lt, 0);
}

/* Each of them in just enough room, with places to spare, and with one place less of either kind or of both. */
static void levels_by_hand(void) {
    call_name = "levels";
    for (size_t k = 0; k < sizeof leveled / sizeof *leveled; k++)
        for (size_t kind = 0; kind < 5; kind++) {
            size_t n = leveled[k].n, places = kind == 4 ? n + 5 : n - 1 - (kind & 1), height_places = kind == 4 ? n : n - 1 - (kind >> 1 & 1);
            int before = faults;
            expect_levels(n, leveled[k].t, places, height_places, leveled[k].r, leveled[k].members, leveled[k].heights);
            if (faults > before) fprintf(stderr, "%s: that was line %zu\n", call_name, k + 1);
        }
    EXPECT(KemotuikiLevels, levels, (4, four, 16, NULL, 0, NULL, 0), KEMOTUIKI_NO_ROOM, 0, 0);
}

/*
 * Tables of 64 images: all equally far, whose one group has every bit; as many groups as can be, from the last image on and from the first
 * on, up to the limit, in the room that the header has for them; and one in which the last three images alone have no levels.
 */
static void most_groups(void) {
    static uint32_t t[KEMOTUIKI_IMAGES * KEMOTUIKI_IMAGES], heights[KEMOTUIKI_GROUPS];
    static uint64_t members[KEMOTUIKI_GROUPS];
    const size_t n = KEMOTUIKI_IMAGES, most = KEMOTUIKI_GROUPS;
    call_name = "the most groups";
    for (size_t kind = 0; kind < 4; kind++) {
        KemotuikiLevels want = {0, 0, 0, 0, 0, 0, kind % 3 ? most : 1};
        for (size_t i = 0; i < n; i++)
            for (size_t j = 0; j < i; j++) {
                size_t below = kind == 1 ? j : kind == 2 ? n - 1 - i : 0;
                t[i * n + j] = t[j * n + i] = (uint32_t)(KEMOTUIKI_ENTRY_LIMIT - below);
            }
        for (size_t k = 0; k < most; k++) {
            members[k] = kind == 1 ? UINT64_MAX << (most - 1 - k) : kind == 2 ? UINT64_MAX >> (most - 1 - k) : UINT64_MAX;
            heights[k] = (uint32_t)(KEMOTUIKI_ENTRY_LIMIT - (kind % 3 ? most - 1 - k : 0));
        }
        if (kind == 3) {
            t[(n - 2) * n + n - 3] = t[(n - 3) * n + n - 2] = 1;
            t[(n - 1) * n + n - 3] = t[(n - 3) * n + n - 1] = 2;
            want.number = KEMOTUIKI_NO_LEVELS, want.a = n - 2, want.b = n - 1, want.c = n, want.groups = 0;
        }
        expect_levels(n, t, most, most, want, members, heights);
        expect_levels(n, t, most + 9, most + 2, want, members, heights);
        expect_levels(n, t, most - 1, most, want, members, heights);
        expect_levels(n, t, most, most - 1, want, members, heights);
    }
}

/* ---- the text of an answer ---- */

static const struct {
    size_t head[6];
    const char *text;
} texts[] = {
    {{0, 0, 0, 0, 0, 0}, "accepted"},
    {{1, 0, 65, 0, 0, 0}, "n outside 3..64: n 65"},
    {{1, 0, SIZE_MAX, 0, 0, 0}, "n outside 3..64: n 18446744073709551615"},
    {{2, 0, 0, 0, 0, 0}, "a length does not fit n or the row count"},
    {{2, 3, 0, 0, 0, 0}, "table 3: a length does not fit n or the row count"},
    {{3, 0, 0, 0, 0, 0}, "too little room"},
    {{4, 0, 1, 5, 0, 0}, "entry above the limit: row and column 1 5"},
    {{5, 0, 3, 0, 0, 0}, "diagonal not zero: image 3"},
    {{6, 2, 1, 3, 0, 0}, "table 2: asymmetric: row and column 1 3"},
    {{7, 0, 1, 2, 3, 5}, "no wiring: images 1 2 3 5"},
    {{7, SIZE_MAX, SIZE_MAX, SIZE_MAX, SIZE_MAX, SIZE_MAX},
     "table 18446744073709551615: no wiring: images 18446744073709551615 18446744073709551615 18446744073709551615 "
     "18446744073709551615"},
    {{8, 0, 0, 0, 0, 0}, "image outside 1..n, or first and last the same"},
    {{9, 1, 0, 0, 0, 0}, "table 1: stored bytes end early"},
    {{10, 0, 17, 0, 0, 0}, "row count outside n..2n-3: count 17"},
    {{11, 0, 0, 0, 0, 0}, "fill bits not zero"},
    {{12, 0, 0, 0, 0, 0}, "bad far side or bad row"},
    {{12, 0, 4, 0, 0, 0}, "bad far side or bad row: row 4"},
    {{13, 0, 5, 0, 0, 0}, "an own link is missing: image 5"},
    {{14, 0, 0, 0, 0, 0}, "neither table includes the other"},
    {{15, 0, 0, 0, 0, 0}, "stored tables of different n"},
    {{16, 0, 0, 0, 0, 0}, "no tables or more than sixteen"},
    {{17, 0, 4, 0, 0, 0}, "number above the old limits: row 4"},
    {{17, 0, 1, 5, 0, 0}, "number above the old limits: row and column 1 5"},
    {{17, 2, 125, 0, 0, 0}, "table 2: number above the old limits: row 125"},
    {{18, 0, 5, 0, 0, 0}, "outside the Newick profile: byte 5"},
    {{18, 0, 1433, 0, 0, 0}, "outside the Newick profile: byte 1433"},
    {{19, 0, 0, 0, 0, 0}, "more than 1,024 far sides in one report"},
    {{19, 500, 0, 0, 0, 0}, "table 500: more than 1,024 far sides in one report"},
    {{20, 0, 1, 2, 0, 0}, "zero off the diagonal: row and column 1 2"},
    {{20, 0, 0, 0, 0, 0}, "zero off the diagonal: row and column 0 0"},
    {{20, 500, 63, 64, 0, 0}, "table 500: zero off the diagonal: row and column 63 64"},
    {{21, 0, 1, 2, 3, 0}, "no levels: images 1 2 3"},
    {{21, 0, 62, 63, 64, 5}, "no levels: images 62 63 64"},
    {{21, 2, 0, 0, 0, 0}, "table 2: no levels: images 0 0 0"},
    {{22, 0, 10, 0, 0, 0}, "siblings out of order: byte 10"},
    {{22, 2, 10, 0, 0, 0}, "table 2: siblings out of order: byte 10"},
    {{23, 0, 0, 0, 0, 0}, "no such refusal: number 23"},
    {{SIZE_MAX, 0, 1, 2, 3, 4}, "no such refusal: number 18446744073709551615"},
};

/* Each text with its zero byte, in just enough room and in more; and no byte altered where the room is one short. */
static void text_of_answers(void) {
    call_name = "refusal_text";
    for (size_t k = 0; k < sizeof texts / sizeof *texts; k++)
        for (size_t room = KEMOTUIKI_TEXT_BYTES - 1; room < KEMOTUIKI_TEXT_BYTES + 2; room++) {
            Lent lo;
            const size_t *h = texts[k].head;
            char *out = lend(&lo, room, 1);
            keep(&lo);
            KemotuikiBytes r = kemotuiki_refusal_text(h[0], h[1], h[2], h[3], h[4], h[5], out, room);
            if (room < KEMOTUIKI_TEXT_BYTES) {
                if (r.number != KEMOTUIKI_NO_ROOM || r.used) fault("too little room was not refused");
            } else if (r.number || r.used != strlen(texts[k].text) + 1 || memcmp(out, texts[k].text, r.used))
                fprintf(stderr, "%s: not \"%s\"\n", call_name, texts[k].text), faults++;
            settle(&lo, r.used);
        }
    EXPECT(KemotuikiBytes, refusal_text, (7, 0, 1, 2, 3, 4, NULL, 0), KEMOTUIKI_NO_ROOM, 0, 0);
}

static int edges(void) {
    no_images();
    no_places();
    no_team();
    no_bytes();
    longest_tables();
    images_that_cost_nothing();
    own_link_of_nothing();
    newick_texts();
    longest_newick();
    replays_by_hand();
    longest_replays();
    reports_by_hand();
    most_tables();
    most_sides();
    levels_by_hand();
    most_groups();
    text_of_answers();
    return faults ? 1 : 0;
}

int main(int argc, char **argv) {
    if (argc == 2 && !strcmp(argv[1], "--edges")) return edges();
    if (argc == 2) return cases(argv[1]);
    fprintf(stderr, "usage: boundary DATA | boundary --edges\n");
    return 2;
}
