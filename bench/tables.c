#include "tables.h"

static uint64_t state;

void seed(uint64_t start) { state = start; }

uint32_t dice(uint32_t below) {
    state = state * 6364136223846793005u + 1442695040888963407u;
    return (uint32_t)(state >> 33) % below;
}

/* Each image joins a link of the tree so far, which is split by a new switch. */
static int join_images(size_t n, int *leaf, int *parent, uint32_t *up) {
    int vertices = 2;
    leaf[0] = 0, leaf[1] = 1;
    parent[0] = -1, parent[1] = 0, up[0] = 0, up[1] = 2 + dice(400);
    for (size_t i = 2; i < n; i++) {
        int below = 1 + dice(vertices - 1), middle = vertices++, image = vertices++;
        uint32_t part = 1 + dice(up[below] > 1 ? up[below] - 1 : 1);
        if (up[below] < 2) up[below] = 2, part = 1;
        parent[middle] = parent[below], up[middle] = up[below] - part;
        parent[below] = middle, up[below] = part;
        parent[image] = middle, up[image] = 2 + dice(400);
        leaf[i] = image;
    }
    return vertices;
}

void random_tree(size_t n, uint32_t *t) {
    int leaf[64], parent[200];
    uint32_t up[200], down[200];
    int vertices = join_images(n, leaf, parent, up);
    for (size_t i = 0; i < n; i++) {
        uint32_t sum = 0;
        for (int v = 0; v < vertices; v++) down[v] = UINT32_MAX;
        for (int v = leaf[i]; v >= 0; sum += up[v], v = parent[v]) down[v] = sum;
        for (size_t j = 0; j < n; j++) {
            uint32_t s = 0;
            int v = leaf[j];
            for (; down[v] == UINT32_MAX; v = parent[v]) s += up[v];
            t[i * n + j] = s + down[v];
        }
    }
}

/* The table with the entries of `cost` at images i < j. */
static void fill(size_t n, uint32_t *t, uint32_t (*cost)(size_t i, size_t j)) {
    for (size_t i = 0; i < n; i++) {
        t[i * n + i] = 0;
        for (size_t j = i + 1; j < n; j++) t[i * n + j] = t[j * n + i] = cost(i, j);
    }
}

static uint32_t along(size_t i, size_t j) { return 20 * (uint32_t)(j - i) + 10; }
static uint32_t even(size_t i, size_t j) { return i == j ? 0 : 20; }
static uint32_t halves(size_t i, size_t j) { return 20 * (uint32_t)(64 - __builtin_clzll(i ^ j)); }
static uint32_t any(size_t i, size_t j) {
    (void)i, (void)j;
    return 1 + dice(1000000);
}

static uint32_t latest(size_t i, size_t j) {
    (void)i;
    return 20 * (uint32_t)j;
}

void caterpillar(size_t n, uint32_t *t) { fill(n, t, along); }
void star(size_t n, uint32_t *t) { fill(n, t, even); }
void balanced(size_t n, uint32_t *t) { fill(n, t, halves); }
void random_table(size_t n, uint32_t *t) { fill(n, t, any); }
void nested_levels(size_t n, uint32_t *t) { fill(n, t, latest); }

/* group[i] is the lowest image of image i's group. */
void random_levels(size_t n, uint32_t *t) {
    size_t group[64];
    for (size_t i = 0; i < n; i++) group[i] = i, t[i * n + i] = 0;
    for (uint32_t height = 20; height < 20 * n; height += 20) {
        size_t a, b;
        do a = group[dice(n)], b = group[dice(n)];
        while (a == b);
        for (size_t i = 0; i < n; i++)
            for (size_t j = 0; j < n; j++)
                if (group[i] == a && group[j] == b) t[i * n + j] = t[j * n + i] = height;
        for (size_t i = 0; i < n; i++)
            if (group[i] == a || group[i] == b) group[i] = a < b ? a : b;
    }
}

void raise(size_t n, uint32_t *t) {
    for (size_t i = 0; i < n; i++)
        for (size_t j = i + 1; j < n; j++) t[j * n + i] = t[i * n + j] += dice(3);
}
