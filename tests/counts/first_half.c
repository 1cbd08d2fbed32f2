/*
 * The first half of the work buffer and the counts call, which leaves it as it was lent.
 *   first_half           lends one whose first 2 * rows * cols places can be neither read nor written: sheets up to 12 by 12 and larger ones, of right
 *                        and wrong sizes and lengths, every answer of the call; number, place and counts must be those on a plain buffer
 *   first_half SIDE      one sheet on a fresh work buffer: how many pages of each half are in memory afterwards, and the largest resident set
 */
#define _DEFAULT_SOURCE
#include "tervuola.h"
#include <stdio.h>
#include <stdlib.h>
#include <string.h>
#include <sys/mman.h>
#include <sys/resource.h>
#include <unistd.h>

static void fail(const char *what)
{
    fprintf(stderr, "first_half: %s\n", what);
    exit(1);
}

static uint32_t random_below(uint32_t n)
{
    static uint64_t state = 88172645463325252u;
    state ^= state << 13;
    state ^= state >> 7;
    state ^= state << 17;
    return (uint32_t)(state >> 32) % n;
}

/* A lent work buffer on fresh pages, its place `front` at the beginning of a page. */
struct lent {
    unsigned char *base;
    size_t before, after; /* bytes of pages that hold the places before `front`, and those from it on */
    uint32_t *work;
};

static size_t in_pages(size_t bytes)
{
    size_t page = (size_t)sysconf(_SC_PAGESIZE);
    return (bytes + page - 1) / page * page;
}

static struct lent lend(size_t len, size_t front)
{
    struct lent l;
    l.before = in_pages(front * sizeof *l.work);
    l.after = in_pages((len - front) * sizeof *l.work);
    l.base = mmap(NULL, l.before + l.after, PROT_READ | PROT_WRITE, MAP_PRIVATE | MAP_ANONYMOUS, -1, 0);
    if (l.base == MAP_FAILED) fail("no memory");
    madvise(l.base, l.before + l.after, MADV_NOHUGEPAGE);
    l.work = (uint32_t *)(void *)(l.base + l.before) - front;
    return l;
}

static void give_back(struct lent l)
{
    munmap(l.base, l.before + l.after);
}

static size_t pages_in_memory(unsigned char *from, size_t bytes)
{
    size_t pages = bytes / in_pages(1), in = 0;
    unsigned char *seen = malloc(pages + 1);
    if (!seen || (bytes && mincore(from, bytes, seen))) fail("mincore");
    for (size_t i = 0; i < pages; i++) in += seen[i] & 1;
    free(seen);
    return in;
}

/* codes: towards the south-east, so that every route ends; with a cell of code 0 here and there; any of the eight; any byte now and then */
static void put_codes(uint8_t *codes, size_t n, uint32_t kind)
{
    static const uint8_t down[] = { TERVUOLA_EAST, TERVUOLA_SOUTH_EAST, TERVUOLA_SOUTH };
    for (size_t i = 0; i < n; i++) {
        codes[i] = kind == 2 ? (uint8_t)(1u << random_below(8)) : down[random_below(3)];
        if (kind == 1 && random_below(9) == 0) codes[i] = 0;
        if (kind == 3 && random_below(50) == 0) codes[i] = (uint8_t)random_below(256);
    }
}

static unsigned long met[TERVUOLA_NO_OUTLET + 1];

/* rows and cols are those of the call, the lengths those of its buffers */
static void call(uint32_t rows, uint32_t cols, size_t codes_len, size_t counts_len, size_t work_len, uint32_t kind)
{
    size_t bytes = counts_len * sizeof(uint32_t), half = 2 * (size_t)rows * cols, front = half < work_len ? half : work_len;
    uint8_t *codes = malloc(codes_len + 1);
    uint32_t *counts = malloc(bytes + 1), *plain = malloc(bytes + 1), *work = malloc(work_len * sizeof *work + 1);
    if (!codes || !counts || !plain || !work) fail("no memory");
    put_codes(codes, codes_len, kind);
    memset(counts, 0x5A, bytes);
    memset(plain, 0x5A, bytes);
    struct lent l = lend(work_len, front);
    if (l.before && mprotect(l.base, l.before, PROT_NONE)) fail("mprotect");
    tervuola_answer a = tervuola_counts(rows, cols, codes, codes_len, counts, counts_len, l.work, work_len);
    tervuola_answer b = tervuola_counts(rows, cols, codes, codes_len, plain, counts_len, work, work_len);
    if (a.number != b.number || a.place != b.place || memcmp(counts, plain, bytes)) fail("another result than on a plain work buffer");
    if (a.number > TERVUOLA_NO_OUTLET) fail("a number that there is not");
    met[a.number]++;
    give_back(l);
    free(codes);
    free(counts);
    free(plain);
    free(work);
}

static void wrong_call(uint32_t rows, uint32_t cols, uint32_t kind)
{
    size_t n = (size_t)rows * cols;
    switch (random_below(5)) {
    case 0: call(random_below(2) ? 0 : 4001, cols, n, n, 4 * n, kind); break;
    case 1: call(rows, random_below(2) ? 0 : 4001, n, n, 4 * n, kind); break;
    case 2: call(rows, cols, n - 1, n, 4 * n, kind); break;
    case 3: call(rows, cols, n, n + 1, 4 * n, kind); break;
    default: call(rows, cols, n, n, 4 * n - 1 - random_below((uint32_t)n), kind); break;
    }
}

static int protected_calls(void)
{
    static const unsigned numbers[] = { 0, 5, 6, 7, 8, 9, 11, 12 };
    static const uint32_t larger[][2] = { { 1, 4000 }, { 4000, 1 }, { 33, 31 }, { 100, 170 }, { 512, 512 }, { 1000, 1000 } };
    unsigned long calls = 0;
    for (uint32_t i = 0; i < 12 * 12 * 4 * 8; i++) {
        uint32_t rows = 1 + i % 12, cols = 1 + i / 12 % 12, kind = i / 144 % 4;
        size_t n = (size_t)rows * cols;
        call(rows, cols, n, n, 4 * n + (random_below(3) ? 0 : random_below(9)), kind);
        wrong_call(rows, cols, kind);
    }
    for (uint32_t i = 0; i < 6 * 4; i++) {
        uint32_t rows = larger[i / 4][0], cols = larger[i / 4][1];
        size_t n = (size_t)rows * cols;
        call(rows, cols, n, n, 4 * n, i % 4);
    }
    printf("first half: neither read nor written, times of each answer:");
    for (size_t i = 0; i < sizeof numbers / sizeof *numbers; i++) {
        printf("  %u: %lu", numbers[i], met[numbers[i]]);
        if (!met[numbers[i]]) fail("an answer has not come");
        calls += met[numbers[i]];
    }
    printf("; %lu calls\n", calls);
    return 0;
}

static int resident(uint32_t side)
{
    size_t n = (size_t)side * side;
    struct rusage use;
    uint8_t *codes = malloc(n);
    uint32_t *counts = malloc(n * sizeof *counts);
    if (!codes || !counts) fail("no memory");
    put_codes(codes, n, 0);
    memset(counts, 0, n * sizeof *counts);
    struct lent l = lend(4 * n, 2 * n);
    getrusage(RUSAGE_SELF, &use);
    long without = use.ru_maxrss;
    tervuola_answer a = tervuola_counts(side, side, codes, n, counts, n, l.work, 4 * n);
    if (a.number) fail(tervuola_text(a.number));
    getrusage(RUSAGE_SELF, &use);
    size_t first = pages_in_memory(l.base, l.before), second = pages_in_memory(l.base + l.before, l.after);
    printf("counts %lu square: pages of the work buffer in memory: first half %lu of %lu, second half %lu of %lu; largest resident set %.0f MB, %.0f of it before the call\n",
           (unsigned long)side, (unsigned long)first, (unsigned long)(l.before / in_pages(1)), (unsigned long)second,
           (unsigned long)(l.after / in_pages(1)), use.ru_maxrss / 1000.0 * 1.024, without / 1000.0 * 1.024);
    if (first) fail("the call has touched the first half of the work buffer");
    give_back(l);
    free(codes);
    free(counts);
    return 0;
}

int main(int argc, char **argv)
{
    return argc > 1 ? resident((uint32_t)atol(argv[1])) : protected_calls();
}
