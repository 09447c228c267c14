/*
 * Counts, from outside, how often each lent byte is touched while stored tables of both forms are written, by the writers and by the
 * conversions. The lent bytes stand on pages that may be neither loaded nor stored; each touch faults, is counted by its address,
 * width and kind, and is then let through alone, by a single step. Each byte of the stored form, whose length is reckoned here, must
 * be stored exactly once and never loaded, any other never touched; a refused call must touch none.
 */
#define _GNU_SOURCE
#include <signal.h>
#include <stdio.h>
#include <string.h>
#include <sys/mman.h>
#include <ucontext.h>
#include <unistd.h>

#include "kemotuiki.h"

enum { ROOM = 4 * 4096, TABLES = 3, TRAP_FLAG = 0x100 };

static uint8_t *lent;
static unsigned stores[ROOM], loads[ROOM];

/* ---- the touches ---- */

/* How many bytes a plain move touches, and whether it stores them; 0 bytes for any other instruction. */
static unsigned moved(const uint8_t *code, int *is_store) {
    unsigned half = 0, wide = 0;
    for (; *code == 0x66 || (*code & 0xf0) == 0x40; code++) {
        if (*code == 0x66) half = 1;
        else wide = *code >> 3 & 1;
    }
    *is_store = *code == 0x88 || *code == 0x89 || *code == 0xc6 || *code == 0xc7;
    switch (*code) {
    case 0x88: case 0x8a: case 0xc6: return 1;
    case 0x89: case 0x8b: case 0xc7: return wide ? 8 : half ? 2 : 4;
    case 0x0f: return code[1] == 0xb6 || code[1] == 0xbe ? 1 : code[1] == 0xb7 || code[1] == 0xbf ? 2 : 0;
    default: return 0;
    }
}

static void on_touch(int sig, siginfo_t *info, void *context) {
    greg_t *registers = ((ucontext_t *)context)->uc_mcontext.gregs;
    uint8_t *at = info->si_addr;
    int is_store = 0;
    unsigned bytes = moved((const uint8_t *)registers[REG_RIP], &is_store);
    (void)sig;
    if (at < lent || at + bytes > lent + ROOM || !bytes) {
        static const char what[] = "stores: a fault elsewhere, or an instruction that is no plain move\n";
        _exit(write(2, what, sizeof what - 1) < 0 ? 3 : 2);
    }
    for (unsigned i = 0; i < bytes; i++) (is_store ? stores : loads)[at - lent + i]++;
    mprotect(lent, ROOM, PROT_READ | PROT_WRITE);
    registers[REG_EFL] |= TRAP_FLAG;
}

static void on_step(int sig, siginfo_t *info, void *context) {
    (void)sig, (void)info;
    mprotect(lent, ROOM, PROT_NONE);
    ((ucontext_t *)context)->uc_mcontext.gregs[REG_EFL] &= ~TRAP_FLAG;
}

static void begin(void) {
    mprotect(lent, ROOM, PROT_READ | PROT_WRITE);
    for (size_t i = 0; i < ROOM; i++) lent[i] = (uint8_t)(i * 37 + 11);
    memset(stores, 0, sizeof stores);
    memset(loads, 0, sizeof loads);
    mprotect(lent, ROOM, PROT_NONE);
}

/* Prints one line, and says whether it is not so that the call answered by this number and with so many used bytes, that each of
 * these was stored once, and that nothing else was touched. */
static int is_wrong(const char *call, size_t n, KemotuikiBytes r, size_t number, size_t used) {
    unsigned long stored = 0, loaded = 0, wrong = r.number != number || r.used != used;
    for (size_t i = 0; i < ROOM; i++) {
        stored += stores[i], loaded += loads[i];
        wrong += stores[i] != (i < used) || loads[i] != 0;
    }
    printf("%s n=%zu: number %zu, %zu bytes used, %lu stored, %lu loaded%s\n", call, n, r.number, r.used, stored, loaded, wrong ? "  WRONG" : "");
    return wrong != 0;
}

/* Whether touches are counted on this machine: a byte and a word stored, and the byte loaded. */
static int counts_right(void) {
    begin();
    *(volatile uint8_t *)(lent + 5) = 1;
    *(volatile uint32_t *)(lent + 8) = 1;
    int right = *(volatile uint8_t *)(lent + 5) == 1;
    for (size_t i = 0; i < ROOM; i++) right &= stores[i] == (i == 5 || (i >= 8 && i < 12)) && loads[i] == (i == 5);
    return right;
}

/* ---- the calls ---- */

static uint32_t t[4096], costs[TABLES * 125], ns[TABLES], counts[TABLES];
static uint64_t fars[TABLES * 125];
static uint8_t stored_costs[KEMOTUIKI_COST_BYTES], stored_links[KEMOTUIKI_LINK_BYTES];

/*
 * A cost table; and the same link table so many times: the own links in ascending order, and as inner links images 2 and 3, then 2 to
 * 4, and so on. All numbers are within the limits of the old form, so that both forms take them.
 */
static void fill(size_t n) {
    size_t rows = 2 * n - 3, k = 0;
    for (size_t i = 0; i < n; i++)
        for (size_t j = 0; j < n; j++) t[i * n + j] = i == j ? 0 : (uint32_t)((i + 3) * (j + 3) * 7919 % 1000001);
    for (size_t i = 1; i < n; i++) {
        fars[k++] = (uint64_t)1 << i;
        if (i > 1) fars[k++] = ((uint64_t)2 << i) - 2;
    }
    for (k = 0; k < rows; k++) costs[k] = (uint32_t)(1 + k * 40961 % 2000000);
    for (size_t m = 0; m < TABLES; m++) {
        ns[m] = (uint32_t)n, counts[m] = (uint32_t)rows;
        if (!m) continue;
        memcpy(fars + m * rows, fars, rows * sizeof *fars);
        memcpy(costs + m * rows, costs, rows * sizeof *costs);
    }
}

/* The bytes that the tables have in a form, by its bits: for the mark of the new one, n, and each entry or row. */
static size_t cost_bytes(size_t form, size_t n) { return ((form ? 7 : 0) + 7 + n * (n - 1) / 2 * (form ? 23 : 20) + 7) / 8; }
static size_t link_bytes(size_t form, size_t n, size_t rows) { return ((form ? 7 : 0) + 14 + rows * (n - 1 + (form ? 24 : 21)) + 7) / 8; }

static int writes_wrong(size_t form, size_t n) {
    size_t rows = 2 * n - 3, all = TABLES * rows;
    size_t of_costs = cost_bytes(form, n), of_links = link_bytes(form, n, rows), of_batch = TABLES * of_links;
    int wrong = 0;
    KemotuikiBytes r;
    fill(n);
    begin(), r = kemotuiki_write_costs(form, n, t, n * n, lent, ROOM);
    wrong |= is_wrong("write_costs", n, r, 0, of_costs);
    begin(), r = kemotuiki_write_links(form, n, rows, fars, rows, costs, rows, lent, ROOM);
    wrong |= is_wrong("write_links", n, r, 0, of_links);
    begin(), r = kemotuiki_write_batch(form, ns, TABLES, counts, TABLES, fars, all, costs, all, lent, ROOM);
    wrong |= is_wrong("write_batch", n, r, 0, of_batch);
    /* too little room, by one byte; a batch that is refused at its last row, by each of two refusals */
    begin(), r = kemotuiki_write_costs(form, n, t, n * n, lent, of_costs - 1);
    wrong |= is_wrong("write_costs refused", n, r, KEMOTUIKI_NO_ROOM, 0);
    begin(), r = kemotuiki_write_links(form, n, rows, fars, rows, costs, rows, lent, of_links - 1);
    wrong |= is_wrong("write_links refused", n, r, KEMOTUIKI_NO_ROOM, 0);
    begin(), r = kemotuiki_write_batch(form, ns, TABLES, counts, TABLES, fars, all, costs, all, lent, of_batch - 1);
    wrong |= is_wrong("write_batch refused", n, r, KEMOTUIKI_NO_ROOM, 0);
    /* the last two images cost nothing */
    t[n * n - 2] = t[n * n - n - 1] = 0;
    begin(), r = kemotuiki_write_costs(form, n, t, n * n, lent, ROOM);
    wrong |= is_wrong("write_costs refused", n, r, KEMOTUIKI_ZERO_OFF_DIAGONAL, 0);
    costs[all - 1] = 2 * KEMOTUIKI_ENTRY_LIMIT + 1;
    begin(), r = kemotuiki_write_batch(form, ns, TABLES, counts, TABLES, fars, all, costs, all, lent, ROOM);
    wrong |= is_wrong("write_batch refused", n, r, KEMOTUIKI_BAD_ROW, 0);
    costs[all - 1] = 2 * KEMOTUIKI_OLD_ENTRY_LIMIT + 1;
    begin(), r = kemotuiki_write_batch(form, ns, TABLES, counts, TABLES, fars, all, costs, all, lent, ROOM);
    return wrong | (form ? is_wrong("write_batch", n, r, 0, of_batch) : is_wrong("write_batch refused", n, r, KEMOTUIKI_ABOVE_OLD_LIMITS, 0));
}

/* From one form into another, or into the same; then with one byte too little room. */
static int conversions_wrong(size_t from, size_t form, size_t n) {
    size_t rows = 2 * n - 3, of_costs = cost_bytes(form, n), of_links = link_bytes(form, n, rows);
    int wrong = 0;
    KemotuikiBytes r;
    fill(n);
    r = kemotuiki_write_costs(from, n, t, n * n, stored_costs, sizeof stored_costs);
    if (r.number) return 1;
    begin(), r = kemotuiki_convert_costs(form, stored_costs, r.used, lent, ROOM);
    wrong |= is_wrong("convert_costs", n, r, 0, of_costs);
    begin(), r = kemotuiki_convert_costs(form, stored_costs, sizeof stored_costs, lent, of_costs - 1);
    wrong |= is_wrong("convert_costs refused", n, r, KEMOTUIKI_NO_ROOM, 0);
    r = kemotuiki_write_links(from, n, rows, fars, rows, costs, rows, stored_links, sizeof stored_links);
    if (r.number) return 1;
    begin(), r = kemotuiki_convert_links(form, stored_links, r.used, lent, ROOM);
    wrong |= is_wrong("convert_links", n, r, 0, of_links);
    begin(), r = kemotuiki_convert_links(form, stored_links, sizeof stored_links, lent, of_links - 1);
    return wrong | is_wrong("convert_links refused", n, r, KEMOTUIKI_NO_ROOM, 0);
}

/* With an argument: only whether touches are counted here. */
int main(int argc, char **argv) {
    struct sigaction touch = {.sa_sigaction = on_touch, .sa_flags = SA_SIGINFO}, step = {.sa_sigaction = on_step, .sa_flags = SA_SIGINFO};
    lent = mmap(NULL, ROOM, PROT_READ | PROT_WRITE, MAP_PRIVATE | MAP_ANONYMOUS, -1, 0);
    if (lent == MAP_FAILED || sigaction(SIGSEGV, &touch, NULL) || sigaction(SIGTRAP, &step, NULL)) return 2;
    (void)argv;
    if (argc > 1) return !counts_right();
    int wrong = 0;
    for (size_t n = 3; n <= 64; n++)
        for (size_t form = 0; form < 2; form++) {
            wrong |= writes_wrong(form, n);
            for (size_t from = 0; from < 2; from++) wrong |= conversions_wrong(from, form, n);
        }
    return wrong;
}
