/*
 * The watersheds call and the labels of its starts, on buffers up to the edges of memory that can be neither read nor written.
 *   edges          every size up to 20 by 20, and rows and columns of up to 300 cells: starts on every cell with a code, or on some, with
 *                  labels of several forms, all different or some of them repeated; number, place and watersheds as they are defined
 *   edges SIDE     one square sheet with a start on every cell, so that each is its own watershed; then with one label repeated
 * The work buffer has just 4 * rows * cols elements, and codes and starts can only be read.
 */
#define _DEFAULT_SOURCE
#include "tervuola.h"
#include <stdio.h>
#include <stdlib.h>
#include <string.h>
#include <sys/mman.h>
#include <unistd.h>

static void fail(const char *what, uint32_t rows, uint32_t cols)
{
    fprintf(stderr, "watersheds: %s, %u by %u\n", what, (unsigned)rows, (unsigned)cols);
    exit(1);
}

static uint32_t random_below(uint32_t n)
{
    static uint64_t state = 88172645463325252u;
    state ^= state << 13;
    state ^= state >> 7;
    state ^= state << 17;
    return (uint32_t)(state >> 32) % n;
}

/* Pages between two that cannot be read, and what is lent there: at their end, or at their beginning. */
struct room {
    unsigned char *pages, *lent;
    size_t size, bytes;
};
enum { UNUSED = 0xA5 };

static struct room room_for(size_t bytes)
{
    struct room r = {NULL, NULL, 0, bytes};
    size_t page = (size_t)sysconf(_SC_PAGESIZE);
    r.size = (bytes + page - 1) / page * page;
    unsigned char *all = mmap(NULL, r.size + 2 * page, PROT_NONE, MAP_PRIVATE | MAP_ANONYMOUS, -1, 0);
    if (all == MAP_FAILED || mprotect(all + page, r.size, PROT_READ | PROT_WRITE)) fail("no memory", 0, 0);
    r.pages = all + page;
    return r;
}

/* what is read only has a content */
static void *lend(struct room *r, const void *content, int at_end)
{
    if (mprotect(r->pages, r->size, PROT_READ | PROT_WRITE)) fail("no memory", 0, 0);
    memset(r->pages, UNUSED, r->size);
    r->lent = r->pages + (at_end ? r->size - r->bytes : 0);
    if (content) memcpy(r->lent, content, r->bytes);
    if (content && mprotect(r->pages, r->size, PROT_READ)) fail("no memory", 0, 0);
    return r->lent;
}

static int unused(const unsigned char *from, const unsigned char *to)
{
    while (from < to && *from == UNUSED) from++;
    return from == to;
}

static int kept_to_itself(struct room r)
{
    return unused(r.pages, r.lent) && unused(r.lent + r.bytes, r.pages + r.size);
}

static void give_back(struct room r)
{
    size_t page = (size_t)sysconf(_SC_PAGESIZE);
    munmap(r.pages - page, r.size + 2 * page);
}

/* a sheet, and what is lent for it */
struct sheet {
    uint32_t rows, cols;
    size_t cells;
    uint8_t *codes;
    uint32_t *starts, *watersheds; /* the watersheds are those that are expected */
    struct room code_room, start_room, result_room, work_room;
};

static void *get(size_t bytes)
{
    void *p = malloc(bytes);
    if (!p) fail("no memory", 0, 0);
    return p;
}

static struct sheet sheet_of(uint32_t rows, uint32_t cols)
{
    struct sheet s = {.rows = rows, .cols = cols, .cells = (size_t)rows * cols};
    s.codes = get(s.cells);
    s.starts = get(4 * s.cells);
    s.watersheds = get(4 * s.cells);
    s.code_room = room_for(s.cells);
    s.start_room = room_for(4 * s.cells);
    s.result_room = room_for(4 * s.cells);
    s.work_room = room_for(4 * tervuola_work_size(rows, cols));
    return s;
}

static void done_with(struct sheet s)
{
    free(s.codes);
    free(s.starts);
    free(s.watersheds);
    give_back(s.code_room);
    give_back(s.start_room);
    give_back(s.result_room);
    give_back(s.work_room);
}

static unsigned long met[TERVUOLA_REPEATED_LABEL + 1];

/* the largest sheets would take long: one form of labels, at one edge */
static int is_largest(const struct sheet *s)
{
    return s->cells > 1000000;
}

/* the answer at both edges; beside a refusal the result stays */
static void call(struct sheet *s, tervuola_answer wanted)
{
    for (int at_end = is_largest(s); at_end < 2; at_end++) {
        const uint8_t *codes = lend(&s->code_room, s->codes, at_end);
        const uint32_t *starts = lend(&s->start_room, s->starts, at_end);
        uint32_t *result = lend(&s->result_room, NULL, at_end), *work = lend(&s->work_room, NULL, at_end);
        size_t n = s->cells;
        tervuola_answer a = tervuola_watersheds(s->rows, s->cols, codes, n, starts, n, result, n, work, 4 * n);
        if (a.number != wanted.number) fail("another number", s->rows, s->cols);
        if (a.place != wanted.place) fail("another place", s->rows, s->cols);
        if (a.number ? !unused(s->result_room.lent, s->result_room.lent + 4 * n) : memcmp(result, s->watersheds, 4 * n))
            fail(a.number ? "a result beside a refusal" : "another watershed", s->rows, s->cols);
        if (!kept_to_itself(s->result_room) || !kept_to_itself(s->work_room)) fail("a byte outside a buffer", s->rows, s->cols);
        met[a.number]++;
    }
}

/* 13, and 24 word by word: of the labels above 0 on more than one cell the lowest, and the second cell with it */
static tervuola_answer definition(const struct sheet *s)
{
    tervuola_answer a = {TERVUOLA_OK, 0};
    uint32_t lowest = 0;
    for (uint32_t c = 0; c < s->cells; c++)
        if (s->starts[c] && !s->codes[c]) {
            a.number = TERVUOLA_BAD_START;
            a.place = c;
            return a;
        }
    for (uint32_t c = 0; c < s->cells; c++) {
        uint32_t label = s->starts[c], cells_before = 0;
        if (label == 0 || (lowest && label > lowest)) continue;
        for (uint32_t b = 0; b < c && cells_before < 2; b++) cells_before += s->starts[b] == label;
        if (cells_before == 0 || (label == lowest && cells_before > 1)) continue;
        lowest = label;
        a.number = TERVUOLA_REPEATED_LABEL;
        a.place = c;
    }
    return a;
}

/* codes go east or south, so the cells that a cell flows to come behind it */
static void put_watersheds(struct sheet *s)
{
    for (size_t c = s->cells; c-- > 0;) {
        size_t to = s->codes[c] == TERVUOLA_EAST ? c + 1 : c + s->cols;
        int leaves = s->codes[c] == TERVUOLA_EAST ? c % s->cols + 1 == s->cols : to >= s->cells;
        s->watersheds[c] = s->codes[c] == 0 ? 0 : s->starts[c] ? s->starts[c] : leaves ? 0 : s->watersheds[to];
    }
}

/* different labels for the k-th of n starts: rising, falling from the largest, apart in the highest byte first, and in no order */
enum { FORMS = 4 };
static uint32_t label(int form, uint32_t k, uint32_t n)
{
    switch (form) {
    case 0: return k + 1;
    case 1: return UINT32_MAX - k;
    case 2: return (n - k) << 24 | (n - k) >> 8;
    default: return (k + 1) * 2654435761u;
    }
}

/* what is repeated: nothing; the first start's label on the last; the last two; the last three; many, on any cells */
enum { REPEATS = 5 };
static void repeat(uint32_t *starts, const uint32_t *cells, uint32_t count, int which)
{
    if (count < 2) return;
    if (which == 1) starts[cells[count - 1]] = starts[cells[0]];
    if (which == 2) starts[cells[count - 1]] = starts[cells[count - 2]];
    if (which == 3) starts[cells[count - 1]] = starts[cells[count - 2]] = starts[cells[count > 2 ? count - 3 : 0]];
    for (uint32_t k = 0; which == 4 && k < 1 + count / 3; k++) starts[cells[random_below(count)]] = starts[cells[random_below(count)]];
}

/* every form, with starts on all cells that have a code and on some; with a code 0 here and there, and now and then a start on one */
static void small(uint32_t rows, uint32_t cols)
{
    struct sheet s = sheet_of(rows, cols);
    uint32_t *cells = get(4 * s.cells);
    for (int form = 0; form < FORMS; form++)
        for (int which = 0; which < REPEATS; which++) {
            int bare = (form + which) % 2, some = random_below(3) == 0;
            uint32_t count = 0;
            memset(s.starts, 0, 4 * s.cells);
            for (uint32_t c = 0; c < s.cells; c++) {
                s.codes[c] = bare && random_below(9) == 0 ? 0 : random_below(2) ? TERVUOLA_EAST : TERVUOLA_SOUTH;
                if (s.codes[c] && !(some && random_below(2))) cells[count++] = c;
            }
            for (uint32_t k = 0; k < count; k++) s.starts[cells[k]] = label(form, k, count);
            repeat(s.starts, cells, count, which);
            uint32_t c = random_below((uint32_t)s.cells);
            if (s.codes[c] == 0 && random_below(3) == 0) s.starts[c] = label(form, 0, count + 1);
            put_watersheds(&s);
            call(&s, definition(&s));
        }
    free(cells);
    done_with(s);
}

static int sizes(void)
{
    for (uint32_t rows = 1; rows <= 20; rows++)
        for (uint32_t cols = 1; cols <= 20; cols++) small(rows, cols);
    for (uint32_t side = 21; side <= 300; side++) {
        small(1, side);
        small(side, 1);
    }
    small(1, TERVUOLA_MAX_SIDE);
    small(TERVUOLA_MAX_SIDE, 1);
    const unsigned long accepted = met[TERVUOLA_OK], bad = met[TERVUOLA_BAD_START], repeated = met[TERVUOLA_REPEATED_LABEL];
    printf("watersheds: at the edges of memory %lu accepted, %lu with 13, %lu with 24\n", accepted, bad, repeated);
    return accepted && bad && repeated ? 0 : 1;
}

/* a start on every cell, in every form; and the last cell's label on the first too, or on the one before it */
static int large(uint32_t side)
{
    struct sheet s = sheet_of(side, side);
    uint32_t n = (uint32_t)s.cells;
    memset(s.codes, TERVUOLA_EAST, n);
    for (int form = is_largest(&s) ? FORMS - 1 : 0; form < FORMS; form++) {
        const tervuola_answer accepted = {TERVUOLA_OK, 0}, refused = {TERVUOLA_REPEATED_LABEL, n - 1};
        for (uint32_t c = 0; c < n; c++) s.starts[c] = s.watersheds[c] = label(form, c, n);
        call(&s, accepted);
        s.starts[form % 2 ? 0 : n - 2] = s.starts[n - 1];
        call(&s, refused);
    }
    printf("watersheds: %u square, a start on every cell\n", (unsigned)side);
    done_with(s);
    return 0;
}

int main(int argc, char **argv)
{
    return argc > 1 ? large((uint32_t)atol(argv[1])) : sizes();
}
