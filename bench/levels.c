/*
 * The reading of levels, on tables that have levels and on tables that have none: the archive, the same in C, and C that looks at all
 * threes of images.
 */
#include "levels.h"

#include <stdio.h>
#include <stdlib.h>
#include <string.h>

#include "kemotuiki.h"
#include "plain.h"
#include "race.h"
#include "tables.h"

enum { COUNT = 3 };
static const char head[] = "| Table | n | groups | archive, µs | C, µs | C over all threes, µs | archive / C | archive / all threes |\n|---|---|---|---|---|---|---|---|\n";

static int printing;
static size_t n;
static uint32_t table[4096], heights[63];
static uint64_t members[63];
static KemotuikiLevels answer;

static void archive(void) { answer = kemotuiki_levels(n, table, n * n, members, 63, heights, 63); }
static void quick(void) { answer.number = (size_t)plain_levels(n, table, n * n, members, heights, 63, &answer.groups); }
static void all_threes(void) { answer.number = (size_t)plain_levels_all_threes(n, table, n * n, members, heights, 63, &answer.groups); }
static Call *const calls[COUNT] = {archive, quick, all_threes};

/* Stops unless all answer alike: the number, the groups and the heights. The C names no images. */
static void compare(const char *name, size_t number) {
    uint64_t kept_members[63] = {0};
    uint32_t kept_heights[63] = {0};
    size_t groups = 0;
    for (size_t i = 0; i < COUNT; i++) {
        memset(members, 0, sizeof members), memset(heights, 0, sizeof heights), memset(&answer, 0, sizeof answer);
        calls[i]();
        if (i == 0) groups = answer.groups, memcpy(kept_members, members, sizeof members), memcpy(kept_heights, heights, sizeof heights);
        if (answer.number == number && answer.groups == groups && !memcmp(members, kept_members, sizeof members) &&
            !memcmp(heights, kept_heights, sizeof heights))
            continue;
        fprintf(stderr, "%s at %zu: call %zu differs\n", name, n, i);
        exit(1);
    }
}

static void race_levels(const char *name, size_t number) {
    double us[COUNT];
    compare(name, number);
    size_t groups = answer.groups;
    race(COUNT, calls, us);
    if (printing)
        printf("| %s | %zu | %zu | %.1f | %.1f | %.1f | %.2f | %.2f |\n", name, n, groups, us[0], us[1], us[2], us[0] / us[1], us[0] / us[2]);
}

static void accepted(const char *name, void (*make)(size_t n, uint32_t *t)) {
    seed(7), make(n, table);
    race_levels(name, 0);
}

/* All alike but for the last three images, which are near to each other, one entry of them 1 too large: of all threes they alone fail. */
static void refused_late(void) {
    star(n, table);
    for (size_t i = n - 3; i < n; i++)
        for (size_t j = n - 3; j < n; j++)
            if (i != j) table[i * n + j] = i + j == 2 * n - 3 ? 3 : 2;
    race_levels("all alike but the last three, refused", 21);
}

void levels(int print) {
    static const size_t sizes[] = {9, 32, 64};
    printing = print;
    if (printing) printf("\n%s", head);
    for (size_t k = 0; k < 3; k++) {
        n = sizes[k];
        accepted("halves", balanced);
        accepted("one inside another", nested_levels);
        accepted("all alike", star);
        accepted("random levels", random_levels);
        seed(7), random_table(n, table);
        race_levels("random table, refused early", 21);
        refused_late();
    }
}
