/*
 * Kemotuiki: relay trees from link costs.
 *
 * A cost table over n images, n from 3 to 64, is n*n numbers, row by row: each at most 8,000,000, 0 on the diagonal and nowhere else,
 * symmetric. A 0 between two different images is a link that nobody timed, and every call that takes a cost table refuses it, in a
 * stored table that an earlier version wrote as well.
 * A division of the images is named by its far side, the group without image 1, as the sum of 2^(i-1) over its images i.
 * A link table is rows of a far side and a doubled cost, at most 16,000,000, far sides strictly ascending, from n to 2n-3 rows.
 * The reading of levels answers groups, each named by its member sum, 2^(i-1) over its images i as well, but with image 1 allowed.
 * Images, rows, tables and events are counted from 1.
 *
 * Both kinds of table have two stored forms. The old form is for entries to 1,000,000 and doubled costs to 2,000,000, and is the
 * one that versions before 3 read. The new form takes every table and is a little longer. Whoever reads takes both, since the
 * first seven bits tell them apart; whoever writes is told which one to write.
 *
 * A link table is also a Newick text, which tools that draw trees take, such as (1:2,2:2,(3:2,4:2):4); with a pair of brackets for
 * each switch: image 1 first inside the outermost ones, then the subtrees at its switch, as those in all other brackets, in ascending
 * far side; behind each image and each inner bracket ':' and the doubled cost of its link; ';' at the end. There are no blanks, no
 * leading zeros, and no zero byte behind it. Each link table has one such text, and reading undoes writing.
 *
 * Every call takes every argument: it answers or refuses, and always ends. A slice is a pointer and the count of its
 * elements; with count 0 the pointer may be null. Any other pointer is to that many elements, aligned as its type asks.
 * A slice that is written overlaps no other slice of the call, which restrict says; slices that are only read may overlap.
 * Nothing is allocated and nothing is kept between calls, so calls on different buffers may run at the same time.
 *
 * A refused call alters no lent place, with two exceptions: a replay has written its rows also where an event was refused, and a term
 * report its far sides also where a table was refused. A call writes only the places that its answer names, from the front.
 *
 * Single numbers are size_t, far sides, member sums and the sums of a term report 64 bits, stored bytes and events 8 bits, text is
 * char. All other slices hold 32 bits, the batch's numbers of images and of rows as well, so that default integers of Fortran cross as
 * they are.
 *
 * The header is C89 with <stdint.h>, later C, and C++.
 */
#ifndef KEMOTUIKI_H
#define KEMOTUIKI_H

#include <stddef.h>
#include <stdint.h>

/* The version, as the file VERSION has it. */
#define KEMOTUIKI_VERSION "4.1.0"
#define KEMOTUIKI_VERSION_MAJOR 4
#define KEMOTUIKI_VERSION_MINOR 1
#define KEMOTUIKI_VERSION_PATCH 0

/*
 * Room that is enough for every n: images, rows of a tree, groups of a table with levels, bytes of a stored table in either form, and in
 * the old form alone; the most tables of a team; bytes of a Newick text; and bytes of a refusal's text.
 */
#define KEMOTUIKI_IMAGES 64
#define KEMOTUIKI_ROWS 125
#define KEMOTUIKI_GROUPS 63
#define KEMOTUIKI_COST_BYTES 5798
#define KEMOTUIKI_LINK_BYTES 1362
#define KEMOTUIKI_OLD_COST_BYTES 5041
#define KEMOTUIKI_OLD_LINK_BYTES 1315
#define KEMOTUIKI_TABLES 16
#define KEMOTUIKI_NEWICK_BYTES 1432
#define KEMOTUIKI_TEXT_BYTES 192

/* The places that a term report needs in each of its slices, which are the far sides that it keeps at most; and its most tables. */
#define KEMOTUIKI_REPORT_SIDES 1024
#define KEMOTUIKI_REPORT_TABLES 500

/* The largest entry of a cost table, and the largest that the old stored form takes. A doubled cost is at most twice as much. */
#define KEMOTUIKI_ENTRY_LIMIT 8000000
#define KEMOTUIKI_OLD_ENTRY_LIMIT 1000000

#if defined(__STDC_VERSION__) && __STDC_VERSION__ >= 199901L
#define KEMOTUIKI_RESTRICT restrict
#elif defined(__GNUC__) || defined(_MSC_VER)
#define KEMOTUIKI_RESTRICT __restrict
#else
#define KEMOTUIKI_RESTRICT
#endif

#if defined(__cplusplus) && __cplusplus >= 201103L
#define KEMOTUIKI_ASSERT(name, condition) static_assert(condition, #name)
#elif defined(__STDC_VERSION__) && __STDC_VERSION__ >= 201112L
#define KEMOTUIKI_ASSERT(name, condition) _Static_assert(condition, #name)
#else
#define KEMOTUIKI_ASSERT(name, condition) typedef char name[(condition) ? 1 : -1]
#endif

#ifdef __cplusplus
extern "C" {
#endif

/* What an answer's number says, and behind it what its places a, b, c, d are; a place that is not named is 0. */
enum KemotuikiNumber {
    KEMOTUIKI_ACCEPTED = 0,
    KEMOTUIKI_BAD_N = 1,             /* n outside 3..64, of an event the n that would be left: n */
    KEMOTUIKI_BAD_LENGTH = 2,        /* a slice's length does not fit n or the row count */
    KEMOTUIKI_NO_ROOM = 3,           /* too little room */
    KEMOTUIKI_ENTRY_TOO_LARGE = 4,   /* entry above the limit, in an old stored table above the old one: row, column */
    KEMOTUIKI_DIAGONAL_NOT_ZERO = 5, /* diagonal not zero: image */
    KEMOTUIKI_ASYMMETRIC = 6,        /* asymmetric: row, column */
    KEMOTUIKI_NO_WIRING = 7,         /* no wiring: four images */
    KEMOTUIKI_BAD_IMAGE = 8,         /* image outside 1..n, of an event the n that are left; in the order call also first = last */
    KEMOTUIKI_BYTES_END = 9,         /* stored bytes end early */
    KEMOTUIKI_BAD_ROW_COUNT = 10,    /* row count outside n..2n-3: count */
    KEMOTUIKI_FILL_NOT_ZERO = 11,    /* fill bits not zero */
    KEMOTUIKI_BAD_ROW = 12,          /* bad far side or bad row: row, 0 for the index call */
    KEMOTUIKI_OWN_LINK_MISSING = 13, /* an own link is missing: image */
    KEMOTUIKI_NEITHER_INCLUDES = 14, /* neither table includes the other */
    KEMOTUIKI_DIFFERENT_N = 15,      /* stored tables of different n */
    KEMOTUIKI_BAD_TABLE_COUNT = 16,  /* no tables or more than sixteen */
    KEMOTUIKI_ABOVE_OLD_LIMITS = 17, /* number above the old limits, so not for the old form: row, and column of a cost table */
    KEMOTUIKI_OUTSIDE_PROFILE = 18,  /* outside the Newick profile: byte, the length plus one where the text ends too early */
    KEMOTUIKI_TOO_MANY_SIDES = 19,   /* more than 1,024 far sides in one report */
    KEMOTUIKI_ZERO_OFF_DIAGONAL = 20, /* zero off the diagonal: row, column */
    KEMOTUIKI_NO_LEVELS = 21,        /* no levels: three images */
    KEMOTUIKI_SIBLINGS_OUT_OF_ORDER = 22 /* siblings of a Newick text out of order: byte */
};

/* The form that a writer is told. Every other number is the new form too, so that each has a meaning and none is refused. */
enum KemotuikiForm {
    KEMOTUIKI_OLD_FORM = 0,
    KEMOTUIKI_NEW_FORM = 1
};

/*
 * What the calls answer. All structs begin alike: number is 0 where the call was accepted, else the refusal's number; table is
 * the table that was refused, in calls that take more than one, else 0; a, b, c, d are the refusal's places. Behind them stand
 * the values of an accepted call, 0 in a refusal; a replay alone has values also where an event was refused, and a term report where
 * a table was. There is no padding, and the same answer always is the same bytes.
 */

/* The index of a division, a signed number: what all choices of images support, or below 0 how far one speaks against it. */
typedef struct KemotuikiIndex {
    size_t number, table, a, b, c, d;
    int64_t signed_index;
} KemotuikiIndex;

/* How many images were written. */
typedef struct KemotuikiOrder {
    size_t number, table, a, b, c, d;
    size_t images;
} KemotuikiOrder;

/* How many rows were written. */
typedef struct KemotuikiRows {
    size_t number, table, a, b, c, d;
    size_t rows;
} KemotuikiRows;

/* How many groups were written. */
typedef struct KemotuikiLevels {
    size_t number, table, a, b, c, d;
    size_t groups;
} KemotuikiLevels;

/* The path cost of two images, doubled as the costs of the rows are. */
typedef struct KemotuikiPath {
    size_t number, table, a, b, c, d;
    size_t cost;
} KemotuikiPath;

/*
 * Two trees compared: the inner rows of each, the inner far sides common to both, the Robinson-Foulds count, which is how many
 * inner far sides are in exactly one, and what that count stands over: inner_first + inner_second, and 1 when both are 0.
 */
typedef struct KemotuikiComparison {
    size_t number, table, a, b, c, d;
    size_t inner_first, inner_second, common, count, over;
} KemotuikiComparison;

/* How many bytes were written. */
typedef struct KemotuikiBytes {
    size_t number, table, a, b, c, d;
    size_t used;
} KemotuikiBytes;

/* A stored cost table: its images, and the bytes that this table alone used. */
typedef struct KemotuikiCosts {
    size_t number, table, a, b, c, d;
    size_t n, used;
} KemotuikiCosts;

/* A stored link table: its images, its rows, and the bytes that this table alone used. */
typedef struct KemotuikiLinks {
    size_t number, table, a, b, c, d;
    size_t n, rows, used;
} KemotuikiLinks;

/* The chosen table, 1 or 2, and its used bytes, from the front of its own buffer. */
typedef struct KemotuikiChoice {
    size_t number, table, a, b, c, d;
    size_t chosen, used;
} KemotuikiChoice;

/* The tree of a Newick text: its images and its rows. */
typedef struct KemotuikiTree {
    size_t number, table, a, b, c, d;
    size_t n, rows;
} KemotuikiTree;

/*
 * Where a replay ended: the images that are left, the rows written, and the event that was refused, 0 where none was. Where the
 * start was refused all three are 0.
 */
typedef struct KemotuikiReplay {
    size_t number, table, a, b, c, d;
    size_t images, rows, event;
} KemotuikiReplay;

/*
 * The figures of a term report over the tables that were read, those before a refused one: n of the first of them, 0 where there is
 * none; how many there are, how many of them have a tree, and how many got 7; the inner far sides seen, of which so many are written;
 * the pairs of a tree and the next tree; over these pairs the sum and the largest of the Robinson-Foulds counts; and the bytes of all
 * tables read. The mean of the counts is count_sum / pairs, two whole numbers; both are 0 where there are fewer than two trees.
 */
typedef struct KemotuikiReport {
    size_t number, table, a, b, c, d;
    size_t images, tables, accepted, apart, sides, pairs, count_sum, largest_count, used;
} KemotuikiReport;

KEMOTUIKI_ASSERT(kemotuiki_words_of_64_bits, sizeof(size_t) == 8);
KEMOTUIKI_ASSERT(kemotuiki_index_size, sizeof(KemotuikiIndex) == 56);
KEMOTUIKI_ASSERT(kemotuiki_order_size, sizeof(KemotuikiOrder) == 56);
KEMOTUIKI_ASSERT(kemotuiki_rows_size, sizeof(KemotuikiRows) == 56);
KEMOTUIKI_ASSERT(kemotuiki_levels_size, sizeof(KemotuikiLevels) == 56);
KEMOTUIKI_ASSERT(kemotuiki_path_size, sizeof(KemotuikiPath) == 56);
KEMOTUIKI_ASSERT(kemotuiki_comparison_size, sizeof(KemotuikiComparison) == 88);
KEMOTUIKI_ASSERT(kemotuiki_bytes_size, sizeof(KemotuikiBytes) == 56);
KEMOTUIKI_ASSERT(kemotuiki_costs_size, sizeof(KemotuikiCosts) == 64);
KEMOTUIKI_ASSERT(kemotuiki_links_size, sizeof(KemotuikiLinks) == 72);
KEMOTUIKI_ASSERT(kemotuiki_choice_size, sizeof(KemotuikiChoice) == 64);
KEMOTUIKI_ASSERT(kemotuiki_tree_size, sizeof(KemotuikiTree) == 64);
KEMOTUIKI_ASSERT(kemotuiki_replay_size, sizeof(KemotuikiReplay) == 72);
KEMOTUIKI_ASSERT(kemotuiki_report_size, sizeof(KemotuikiReport) == 120);

/*
 * The index of the division with the far side s. Above 0, all choices of images support the division, by at least so much, and the
 * measured reading draws it with this doubled cost. At 0 and below, it draws no inner link, and an own link with cost 0; below 0,
 * some choice of images speaks against the division by so much, and none by more. From -15,999,998 to 15,999,999, for own links from
 * -7,999,998, for inner ones to 15,999,998.
 * Answers the index. Refusals 1, 2, 4, 5, 6, 20, 12.
 */
KemotuikiIndex kemotuiki_index(size_t n, const uint32_t *t, size_t t_count, uint64_t s);

/*
 * The order around the tree from image first to image last, all images once. On a table with a wiring no ring through all images is
 * shorter than this one, closed by the way back from last to first, whichever first and last are; where every entry is off by at most D
 * from such a table, none is shorter by more than 4(n-3)D.
 * Answers n, the images written to out. Room: n places. Refusals 1, 2, 3, 4, 5, 6, 20, 8.
 */
KemotuikiOrder kemotuiki_order(size_t n, const uint32_t *t, size_t t_count, size_t first, size_t last,
                               uint32_t *KEMOTUIKI_RESTRICT out, size_t out_count);

/*
 * The measured reading: each image's own link, and an inner row for every division with an index above 0.
 * Answers the rows written to fars and costs. Room: 2n-3 places in each. Refusals 1, 2, 3, 4, 5, 6, 20.
 */
KemotuikiRows kemotuiki_measured(size_t n, const uint32_t *t, size_t t_count,
                                 uint64_t *KEMOTUIKI_RESTRICT fars, size_t fars_count,
                                 uint32_t *KEMOTUIKI_RESTRICT costs, size_t costs_count);

/*
 * The exact reading: the one link table whose path costs are twice the entries.
 * Answers the rows written to fars and costs. Room: 2n-3 places in each. Refusals 1, 2, 3, 4, 5, 6, 20, 7; 7 names the first
 * four images for which no wiring can give the entries.
 */
KemotuikiRows kemotuiki_exact(size_t n, const uint32_t *t, size_t t_count,
                              uint64_t *KEMOTUIKI_RESTRICT fars, size_t fars_count,
                              uint32_t *KEMOTUIKI_RESTRICT costs, size_t costs_count);

/*
 * The exact reading by a second engine. It answers the same as kemotuiki_exact on every argument, refusals and their four images
 * included, so either may stand for the other: choose by time. On a table that has a tree this one takes a time that grows as n*n,
 * the other one as n*n*n; on a table that gets 7 it looks for the four images as the other one does.
 * Answers, room and refusals as of kemotuiki_exact.
 */
KemotuikiRows kemotuiki_exact_grafted(size_t n, const uint32_t *t, size_t t_count,
                                      uint64_t *KEMOTUIKI_RESTRICT fars, size_t fars_count,
                                      uint32_t *KEMOTUIKI_RESTRICT costs, size_t costs_count);

/*
 * The reading of levels, for rooms that are wired in levels: it accepts a table exactly when of the entries of any three images the
 * largest occurs at least twice. A group is two or more images, a largest set in which every entry is at most some entry of the table,
 * and its height is the largest entry inside it, which is not doubled. The entry of two images is the height of the smallest group that
 * holds both, which is the first one written that does; any two groups are nested or disjoint, and all images together are the last.
 * Each such table has a tree too: the exact reading accepts it, and every group but the last is one side of a link of that tree. Groups
 * are no link table, and no call over link tables takes them.
 * Answers the groups written, from 1 to n-1: their member sums, ascending, to members, and their heights to heights. Room: n-1 places in
 * each. Refusals 1, 2, 3, 4, 5, 6, 20, 21; 21 names the first three images whose largest entry occurs once.
 */
KemotuikiLevels kemotuiki_levels(size_t n, const uint32_t *t, size_t t_count,
                                 uint64_t *KEMOTUIKI_RESTRICT members, size_t members_count,
                                 uint32_t *KEMOTUIKI_RESTRICT heights, size_t heights_count);

/*
 * The path cost of images i and j in the link table of count rows: the sum of the doubled costs between them.
 * Answers the cost. Refusals 1, 10, 2, 12, 13, 8.
 */
KemotuikiPath kemotuiki_path(size_t n, size_t count, const uint64_t *fars, size_t fars_count,
                             const uint32_t *costs, size_t costs_count, size_t i, size_t j);

/*
 * The upper row of each row: the first later row whose far side contains it, 0 for the last row.
 * Answers count, the rows written to out. Room: 2n-3 places. Refusals 1, 10, 2, 3, 12, 13.
 */
KemotuikiRows kemotuiki_upper_rows(size_t n, size_t count, const uint64_t *fars, size_t fars_count,
                                   const uint32_t *costs, size_t costs_count,
                                   uint32_t *KEMOTUIKI_RESTRICT out, size_t out_count);

/*
 * The route of image i: the rows from its own link by upper rows to the last row.
 * Answers the rows written to out. Room: 2n-3 places. Refusals 1, 10, 2, 3, 12, 13, 8.
 */
KemotuikiRows kemotuiki_route(size_t n, size_t count, const uint64_t *fars, size_t fars_count,
                              const uint32_t *costs, size_t costs_count, size_t i,
                              uint32_t *KEMOTUIKI_RESTRICT out, size_t out_count);

/*
 * Two cost tables compared by their exact readings. The disagreement, count / over, is not reduced and never above 1: it is 0
 * exactly when the trees have the same inner far sides, and 1 exactly when they have none in common and at least one exists. The
 * count is a distance between trees, their costs apart, and the disagreement is not.
 * Refusals 1 with table 0, then 2, 4, 5, 6, 20, 7 of the first table and then of the second, with the table's number.
 */
KemotuikiComparison kemotuiki_compare(size_t n, const uint32_t *first, size_t first_count,
                                      const uint32_t *second, size_t second_count);

/*
 * The links that a team shares: the far sides that the exact readings of all its tables have, each with the smallest of its
 * doubled costs. The tables are 1 to 16, joined in one slice, table by table.
 * Answers the rows written to fars and costs, which are a link table. Room: 2n-3 places in each. Refusals 1, 16, 2, 3 with
 * table 0; then 4, 5, 6, 20, 7 table by table, with the table's number.
 */
KemotuikiRows kemotuiki_consensus(size_t n, size_t number, const uint32_t *tables, size_t tables_count,
                                  uint64_t *KEMOTUIKI_RESTRICT fars, size_t fars_count,
                                  uint32_t *KEMOTUIKI_RESTRICT costs, size_t costs_count);

/*
 * Images that leave, one by one. Each event is the number that the leaving image has by then; numbers above it drop by one, so that
 * image 2 becomes image 1 where image 1 leaves. The rows start as the exact reading of t and are mended after each event: then they
 * are the exact reading of the cost table of the images that are left. With no events they stay as they start.
 * Answers the images that are left, and the rows written to fars and costs, which are those after the last event alone. Room: 2n-3
 * places in each, for the n of the start. Refusals 1, 2, 3, 4, 5, 6, 20, 7 of the start, where event is 0 and nothing is altered; then
 * event by event 8, and 1, which names 2, where two would be left. The first event that is refused ends the replay, and those behind it
 * are not looked at: event is its number, and images and rows, which are written as in an accepted call, are those before it.
 */
KemotuikiReplay kemotuiki_replay(size_t n, const uint32_t *t, size_t t_count, const uint8_t *events, size_t events_count,
                                 uint64_t *KEMOTUIKI_RESTRICT fars, size_t fars_count,
                                 uint32_t *KEMOTUIKI_RESTRICT costs, size_t costs_count);

/*
 * The stored form of a cost table, in the form that is told.
 * Answers the bytes written to out, each by one store; none is loaded. Room: those bytes, (7 + 10*n*(n-1) + 7) / 8 in the old form
 * and (14 + 23*n*(n-1)/2 + 7) / 8 in the new one. Refusals 1, 2, 4, 5, 6, 20, 17, 3; 17 in the old form alone, at the lowest row and
 * column with an entry above KEMOTUIKI_OLD_ENTRY_LIMIT: the new form takes that table.
 */
KemotuikiBytes kemotuiki_write_costs(size_t form, size_t n, const uint32_t *t, size_t t_count,
                                     uint8_t *KEMOTUIKI_RESTRICT out, size_t out_count);

/*
 * The stored cost table, in either form, that begins at a bit position, which is the start of a byte.
 * Answers n, of which n*n entries are written to out, and the used bytes: the next table begins at position + 8 * used.
 * Room: n*n places. Refusals 9, 1, 3, 9, 11, 4, 20; 4 at an entry above the limit of its form.
 */
KemotuikiCosts kemotuiki_read_costs(const uint8_t *bytes, size_t bytes_count, size_t position,
                                    uint32_t *KEMOTUIKI_RESTRICT out, size_t out_count);

/*
 * The stored form of the link table of count rows, in the form that is told.
 * Answers the bytes written to out, each by one store; none is loaded. Room: those bytes, (14 + count*(n+20) + 7) / 8 in the old
 * form and (21 + count*(n+23) + 7) / 8 in the new one. Refusals 1, 10, 2, 12, 13, 17, 3; 17 in the old form alone, at the lowest
 * row with a doubled cost above 2 * KEMOTUIKI_OLD_ENTRY_LIMIT: the new form takes that table.
 */
KemotuikiBytes kemotuiki_write_links(size_t form, size_t n, size_t count, const uint64_t *fars, size_t fars_count,
                                     const uint32_t *costs, size_t costs_count,
                                     uint8_t *KEMOTUIKI_RESTRICT out, size_t out_count);

/*
 * The stored link table, in either form, that begins at a bit position, which is the start of a byte.
 * Answers n, the rows written to fars and costs, and the used bytes: the next table begins at position + 8 * used.
 * Room: 2n-3 places in each. Refusals 9, 1, 10, 3, 9, 11, 12, 13; 12 also at a cost above the limit of its form.
 */
KemotuikiLinks kemotuiki_read_links(const uint8_t *bytes, size_t bytes_count, size_t position,
                                    uint64_t *KEMOTUIKI_RESTRICT fars, size_t fars_count,
                                    uint32_t *KEMOTUIKI_RESTRICT costs, size_t costs_count);

/*
 * A stored cost table once more, in the form that is told. It stands at the front of bytes in either form, and what follows it
 * plays no part. To the new form every table without a zero off the diagonal goes, with the same entries, and an old one from there
 * back to the same bytes; to the old form it goes where no entry is above KEMOTUIKI_OLD_ENTRY_LIMIT; to the form that it has it is copied.
 * Answers the bytes written to out, each by one store; none is loaded. Room: those bytes, as of kemotuiki_write_costs. Refusals 9,
 * 1, 9, 11, 4, 20, 17, 3.
 */
KemotuikiBytes kemotuiki_convert_costs(size_t form, const uint8_t *bytes, size_t bytes_count,
                                       uint8_t *KEMOTUIKI_RESTRICT out, size_t out_count);

/*
 * A stored link table once more, in the form that is told, likewise: to the old form it goes where no doubled cost is above
 * 2 * KEMOTUIKI_OLD_ENTRY_LIMIT.
 * Answers the bytes written to out, each by one store; none is loaded. Room: those bytes, as of kemotuiki_write_links. Refusals 9,
 * 1, 10, 9, 11, 12, 13, 17, 3.
 */
KemotuikiBytes kemotuiki_convert_links(size_t form, const uint8_t *bytes, size_t bytes_count,
                                       uint8_t *KEMOTUIKI_RESTRICT out, size_t out_count);

/*
 * Link tables stored one after another, all in the form that is told. ns and counts say, table by table, the number of images and
 * the row count; fars and costs are the rows of all tables joined.
 * Answers the bytes written to out, each by one store; none is loaded. Room: the bytes of all tables. Refusals 2 with table 0
 * where ns and counts differ in length; then table by table, with its number, those of kemotuiki_write_links, 2 where either
 * joined slice runs out; 2 with the last table's number, 0 in an empty batch, where rows are left over.
 */
KemotuikiBytes kemotuiki_write_batch(size_t form, const uint32_t *ns, size_t ns_count,
                                     const uint32_t *counts, size_t counts_count,
                                     const uint64_t *fars, size_t fars_count, const uint32_t *costs, size_t costs_count,
                                     uint8_t *KEMOTUIKI_RESTRICT out, size_t out_count);

/*
 * Of two stored link tables over the same images, the one whose inner far sides include all of the other's; the first if
 * both do. Each stands at the front of its buffer, in a form of its own.
 * Refusals 9, 1, 10, 9, 11, 12, 13 of the first table and then of the second, with the table's number; 15; 14, both with
 * table 0.
 */
KemotuikiChoice kemotuiki_choice(const uint8_t *first, size_t first_count, const uint8_t *second, size_t second_count);

/*
 * The term report: stored cost tables of one n, each in a form of its own, read one after another from the front of bytes. It ends
 * where the bytes end, exactly there, since one byte more is the next table; or after KEMOTUIKI_REPORT_TABLES tables, where what
 * follows is not looked at. A table without a tree, which the exact reading refuses by 7, is counted apart and does not end it: the
 * trees on its two sides are a pair. No bytes give a report of zeros.
 * Answers the figures, and writes in ascending order each inner far side that some tree has to fars, in how many trees it is to trees,
 * and the sum of its doubled costs to sums: its mean cost, doubled, is sums[k] / trees[k], two whole numbers and never a rounded one.
 * Room: KEMOTUIKI_REPORT_SIDES places in each of the three, also where fewer are written. Refusals 3 with table 0, where nothing is
 * altered and all figures are 0; then table by table, with its number, 9, 1, 9, 11, 4, 20 as of kemotuiki_read_costs; 15, an n other
 * than that of the first table; 19, where more far sides would be kept than there are places for. The first table that is refused ends
 * the report: it counts in nothing, and the figures and the places written are those of the tables before it, as in an accepted call.
 */
KemotuikiReport kemotuiki_report(const uint8_t *bytes, size_t bytes_count,
                                 uint64_t *KEMOTUIKI_RESTRICT fars, size_t fars_count,
                                 uint32_t *KEMOTUIKI_RESTRICT trees, size_t trees_count,
                                 uint64_t *KEMOTUIKI_RESTRICT sums, size_t sums_count);

/*
 * The Newick text of the link table of count rows.
 * Answers the bytes written to out; no zero byte stands behind them, so printf("%.*s\n", (int)r.used, out) prints it. Room: those
 * bytes, at most KEMOTUIKI_NEWICK_BYTES. Refusals 1, 10, 2, 12, 13, 3.
 */
KemotuikiBytes kemotuiki_write_newick(size_t n, size_t count, const uint64_t *fars, size_t fars_count,
                                      const uint32_t *costs, size_t costs_count,
                                      char *KEMOTUIKI_RESTRICT out, size_t out_count);

/*
 * The link table of a Newick text, which is all of text: a newline or a zero byte at its end is refused. What is read is what
 * kemotuiki_write_newick writes and nothing else: an image has one or two digits, a cost one to eight, a bracket two or more
 * vertices, the outermost three or more; at most 62 brackets are open at once, and siblings stand in ascending far side.
 * Answers n, and the rows written to fars and costs. Room: 2n-3 places in each. Refusals 18, at the first byte that no such text
 * could have there, whatever the order of siblings, or at the length plus one; 1, n being the count of image numbers; 3; 13, for the
 * lowest of 1..n that is not named; 12, for a cost; 22, at the first byte of the first sibling whose far side is below the one before,
 * image 1 apart. Bytes are counted from 1.
 */
KemotuikiTree kemotuiki_read_newick(const char *text, size_t text_count,
                                    uint64_t *KEMOTUIKI_RESTRICT fars, size_t fars_count,
                                    uint32_t *KEMOTUIKI_RESTRICT costs, size_t costs_count);

/*
 * What an answer says, as text with a zero byte behind it: "accepted", "no wiring: images 1 2 3 5", "table 2: asymmetric: row
 * and column 1 3". Its first six arguments are the fields that all answers begin with, KEMOTUIKI_HEAD(r) of an answer r.
 * Answers the bytes written to out, the zero byte among them. Room: KEMOTUIKI_TEXT_BYTES. Refusal 3.
 */
#define KEMOTUIKI_HEAD(r) (r).number, (r).table, (r).a, (r).b, (r).c, (r).d
KemotuikiBytes kemotuiki_refusal_text(size_t number, size_t table, size_t a, size_t b, size_t c, size_t d,
                                      char *KEMOTUIKI_RESTRICT out, size_t out_count);

#ifdef __cplusplus
}
#endif

#endif
