/*
 * The calls that take lists: the two about lists of cells, and culverts.
 *   lists            lists up to the edges of memory that cannot be read: no place outside them is looked at, and none of them is written
 *   lists long       a list of more than 2^32 cells: the place of a cell off the sheet, and of the shared ending, past 2^32
 *   lists culverts   as many culverts: a bad one, and one with the lowest level of its cell, past 2^32
 */
#define _DEFAULT_SOURCE
#include "tervuola.h"
#include <stdio.h>
#include <stdlib.h>
#include <string.h>
#include <sys/mman.h>
#include <unistd.h>

static void fail(const char *what)
{
    fprintf(stderr, "lists: %s\n", what);
    exit(1);
}

/* A page that can be read between two that cannot, with a list of so many bytes at its beginning or its end. */
static const void *edge(const void *cells, size_t bytes, int at_end)
{
    static char *pages;
    static size_t page, taken;
    char *list;
    if (pages == NULL) {
        page = (size_t)sysconf(_SC_PAGESIZE);
        pages = (char *)mmap(NULL, 5 * page, PROT_NONE, MAP_PRIVATE | MAP_ANONYMOUS, -1, 0);
        if (pages == MAP_FAILED) fail("no memory");
    }
    list = pages + (taken++ % 2 ? 3 : 1) * page; /* two lists in turn */
    if (mprotect(list, page, PROT_READ | PROT_WRITE) != 0) fail("no memory");
    memset(list, 0xA5, page);
    if (at_end) list += page - bytes;
    memcpy(list, cells, bytes);
    if (mprotect(at_end ? list + bytes - page : list, page, PROT_READ) != 0) fail("no memory");
    return list;
}

/* Walks and lists that are none, on 3 by 3, each of every length from 0 on. */
static void edges(void)
{
    static const uint32_t lists[][6] = {{0, 1, 2, 5, 8, 7}, {3, 4, 2, 5, 8, 7}, {0, 4, 8, 4, 0, 4}, {8, 8, 8, 8, 8, 8}, {0, 1, 2, 3, 4, 5}, {7, 4, 9, 4, 7, 4},
                                        {4294967295u, 4, 4, 4, 4, 4}};
    enum { LISTS = sizeof lists / sizeof *lists };
    unsigned long calls = 0;
    for (int a = 0; a < LISTS; a++)
        for (int b = 0; b < LISTS; b++)
            for (size_t n = 0; n <= 6; n++)
                for (size_t m = 0; m <= 6; m++)
                    for (int ends = 0; ends < 4; ends++, calls++) {
                        const uint32_t *first = edge(lists[a], 4 * n, ends % 2), *second = edge(lists[b], 4 * m, ends / 2);
                        tervuola_located plain = tervuola_check_lists(3, 3, lists[a], n, lists[b], m);
                        tervuola_located answer = tervuola_check_lists(3, 3, first, n, second, m);
                        tervuola_part part = tervuola_shared_ending(3, 3, lists[a], n, lists[b], m), same = tervuola_shared_ending(3, 3, first, n, second, m);
                        if (answer.number != plain.number || answer.place != plain.place) fail("another answer at the edge of memory");
                        if (same.at != part.at || same.count != part.count) fail("another part at the edge of memory");
                        if (tervuola_part_of(first, same) != first + part.at) fail("the part's place");
                    }
    printf("lists: %lu pairs at the edges of memory\n", calls);
}

/* the four results, and what is lent for them: 1 by 3 cells */
struct four {
    int16_t filled[3];
    uint8_t codes[3];
    uint32_t counts[3], labels[3];
};
/* the call on 1 by 3 cells with the east side alone open */
static tervuola_located culverts(const int16_t *elevations, const uint32_t *cells, size_t n, const int16_t *levels, size_t m, struct four *r)
{
    uint32_t work[12];
    memset(r, 0x5A, sizeof *r);
    return tervuola_culverts(1, 3, 13, 1, 1, elevations, 3, cells, n, levels, m, r->filled, 3, r->codes, 3, r->counts, 3, r->labels, 3, work, 12);
}

/* Culverts that are accepted and that are not, in two lists of every length from 0 on. */
static void culvert_edges(void)
{
    static const int16_t elevations[3] = {2, 9, 1};
    static const uint32_t cells[][4] = {{0, 1, 2, 1}, {1, 1, 0, 0}, {1, 3, 0, 1}, {4294967295u, 0, 1, 2}};
    static const int16_t levels[][4] = {{2, 4, 1, 3}, {1, 1, 1, 1}, {-32767, 2, 10, 1}, {0, -32768, 0, 0}};
    unsigned long calls = 0;
    for (int a = 0; a < 4; a++)
        for (int b = 0; b < 4; b++)
            for (size_t n = 0; n <= 4; n++)
                for (size_t m = 0; m <= 4; m++)
                    for (int ends = 0; ends < 4; ends++, calls++) {
                        struct four result, same;
                        tervuola_located plain = culverts(elevations, cells[a], n, levels[b], m, &result);
                        const uint32_t *first = edge(cells[a], 4 * n, ends % 2);
                        const int16_t *second = edge(levels[b], 2 * m, ends / 2);
                        tervuola_located answer = culverts(elevations, first, n, second, m, &same);
                        if (answer.number != plain.number || answer.place != plain.place) fail("another answer for culverts at the edge of memory");
                        if (memcmp(&result, &same, sizeof same)) fail("other results for culverts at the edge of memory");
                    }
    printf("lists: %lu lists of culverts at the edges of memory\n", calls);
}

/* A list of more than 2^32 elements: one block of them seen again and again, so that it takes little memory; the last block is its own. */
enum { BLOCK = 1 << 24, BLOCKS = 257 };
static const size_t LONG = (size_t)BLOCK * BLOCKS, PLACE = ((size_t)1 << 32) + 5;
static void *repeated(size_t element)
{
    const size_t bytes = BLOCK * element;
    FILE *file = tmpfile();
    char *all = (char *)mmap(NULL, bytes * BLOCKS, PROT_NONE, MAP_PRIVATE | MAP_ANONYMOUS | MAP_NORESERVE, -1, 0);
    if (file == NULL || all == MAP_FAILED || ftruncate(fileno(file), (off_t)bytes) != 0) fail("no memory for a long list");
    for (size_t k = 0; k < BLOCKS; k++) {
        int kind = MAP_FIXED | (k + 1 < BLOCKS ? MAP_SHARED : MAP_PRIVATE);
        if (mmap(all + k * bytes, bytes, PROT_READ | PROT_WRITE, kind, fileno(file), 0) == MAP_FAILED) fail("no memory for a long list");
    }
    return all;
}
/* to and fro between cells 0 and 1 */
static uint32_t *to_and_fro(void)
{
    uint32_t *list = repeated(sizeof *list);
    for (size_t i = 0; i < BLOCK; i++) list[i] = (uint32_t)i % 2;
    return list;
}

static void longest(void)
{
    const uint32_t end[] = {1, 2, 1, 0, 1};
    uint32_t *list = to_and_fro();
    tervuola_part part = tervuola_shared_ending(1, 3, list, LONG, end, 5);
    if (part.at != LONG - 3 || part.count != 3) fail("the shared ending of a long list");
    if (tervuola_part_of(list, part) != list + LONG - 3) fail("where the shared ending of a long list lies");
    list[PLACE] = 3;
    tervuola_located answer = tervuola_check_lists(1, 3, list, LONG, end, 5);
    if (answer.number != TERVUOLA_BAD_LIST || answer.place != PLACE) fail("the place of a cell in a long list");
    printf("lists: places past 2^32\n");
}

/* All levels are 0, but for a lower one of cell 1. */
static void most_culverts(void)
{
    static const int16_t elevations[3] = {5, 5, -9}, filled[3] = {0, -3, -9};
    uint32_t *cells = to_and_fro();
    int16_t *levels = repeated(sizeof *levels);
    struct four r;
    levels[PLACE] = -3;
    tervuola_located answer = culverts(elevations, cells, LONG, levels, LONG, &r);
    if (answer.number || answer.place || memcmp(r.filled, filled, sizeof filled)) fail("the lowest level in a long list of culverts");
    levels[PLACE] = 6;
    answer = culverts(elevations, cells, LONG, levels, LONG, &r);
    if (answer.number != TERVUOLA_BAD_LEVEL || answer.place != PLACE) fail("the place of a culvert in a long list");
    printf("lists: culverts past 2^32\n");
}

int main(int argc, char **argv)
{
    if (argc == 2 && strcmp(argv[1], "long") == 0) longest();
    else if (argc == 2 && strcmp(argv[1], "culverts") == 0) most_culverts();
    else {
        edges();
        culvert_edges();
    }
    return 0;
}
