/*
 * bench.c - the library against the expert's C (baseline.c), both in this process, on the same sheet.
 *
 *   bench FILE.bil ROWS COLS [RUNS]
 *
 * Prints, for each step and for the whole, the best of RUNS (default 3) of each side in nanoseconds of processor time for a
 * cell, and their ratio, library to baseline; and fails where a result differs. Buffers are written once before any clock
 * starts. The baseline's fill needs its outlets and its counts and labels need its ways, so these count with the steps that use
 * them: outlets with the fill, ways with the counts and with the labels. The baseline lists no ponds, opens no culvert and closes
 * no side: those lines have the library's own fill, and its own one call, in the baseline's place. The line "culverts" is a list of
 * forty, spread over the sheet, each at its cell's elevation, so that the results are those of the one call. The line "oblong" is
 * the directions call with cells of 3 by 4 beside the same with square ones, whose codes must be those of any square cells. The
 * line "closed" is the one call with the south side alone open; of its results no more is looked at than that nothing is filled
 * lower than with every side open. The line "run" is a run without a turn, which asks 11 and 12, beside the labels call, which asks
 * them too; the line "turns" is of a small sheet of its own. The lines "starts", "all starts" and "shuffled" are the watersheds beside the
 * labels call: of about a thousand starts, and of one on every cell with a code, numbered by cell and in no order.
 */
#define main baseline_main
#include "baseline.c"
#undef main
#include "../include/tervuola.h"

static void same(const char *call, const char *what, const void *a, const void *b, size_t n)
{
    if (memcmp(a, b, n)) {
        fprintf(stderr, "bench: %s: %s differs\n", call, what);
        exit(1);
    }
}

/* the four results of one side */
struct four {
    int16_t *filled;
    uint8_t *codes;
    uint32_t *counts, *labels;
};

static void clear(struct four r, size_t n)
{
    memset(r.filled, 1, 2 * n);
    memset(r.codes, 1, n);
    memset(r.counts, 1, 4 * n);
    memset(r.labels, 1, 4 * n);
}

static void same_four(const char *call, struct four a, struct four b, size_t n)
{
    same(call, "the filled sheet", a.filled, b.filled, 2 * n);
    same(call, "a code", a.codes, b.codes, n);
    same(call, "a count", a.counts, b.counts, 4 * n);
    same(call, "a label", a.labels, b.labels, 4 * n);
}

static void accepted_number(uint32_t number)
{
    if (number) {
        fprintf(stderr, "bench: refused: %s\n", tervuola_text(number));
        exit(1);
    }
}

static void accepted(tervuola_answer a)
{
    accepted_number(a.number);
}

enum { B_FILL, B_DIR, B_ACC, B_LAB, B_ALL, B_N };
static const char *const names[B_N] = { "fill", "directions", "counts", "labels", "whole" };

static void line(const char *name, const char *against, double a, double b, double cells)
{
    printf("  %-10s %-8s %7.2f  library %7.2f ns a cell  ratio %.2f\n", name, against, a * 1e6 / cells, b * 1e6 / cells, b / a);
}

static void least(double *best, double t)
{
    if (t < *best) *best = t;
}

/* the best of some runs with so many turns, each from the same state */
static double least_run(struct sheet s, const uint8_t *code, uint16_t turns, const tervuola_crews *begun, uint32_t *work, int runs, int times)
{
    double best = 1e300;
    for (int run = 0; run < runs; run++) {
        double t = 0;
        for (int k = 0; k < times; k++) {
            tervuola_crews crews = *begun;
            double a = now();
            accepted(tervuola_run(s.rows, s.cols, code, s.cells, turns, &crews, work, tervuola_work_size(s.rows, s.cols)));
            t += now() - a;
        }
        least(&best, t);
    }
    return best;
}

/* turns as an expert's C takes them, on the library's state */
static void take_turns(struct sheet s, const uint8_t *code, unsigned turns, tervuola_crews *crews)
{
    static const int down[8] = { -1, 0, 1, 1, 1, 0, -1, -1 }, right[8] = { 1, 1, 1, 0, -1, -1, -1, 0 };
    uint64_t *w = crews->words;
    for (; turns > 0; turns--) {
        uint32_t k = (uint32_t)(w[64] % 32), cell = (uint32_t)w[32 + k];
        w[64] = (k + 1) % 32;
        if (w[k] != TERVUOLA_WAITING) continue;
        int p = position(code[cell]);
        uint32_t row = cell / s.cols + (uint32_t)down[p], col = cell % s.cols + (uint32_t)right[p], to = row * s.cols + col;
        if (row < s.rows && col < s.cols && code[to]) w[32 + k] = to;
        else w[k] = TERVUOLA_FINISHED;
        w[65] += w[65] < UINT64_MAX;
    }
}

/* One route over all of 64 by 64 cells, east, a row down, west and so on, and every crew at its beginning: 65,535 turns, each of which moves a
 * trace, in nanoseconds a turn, less what the run takes without one. */
static void turn_line(int runs)
{
    struct sheet s = { 64, 64, 64 * 64 };
    static uint8_t code[64 * 64];
    static uint32_t work[4 * 64 * 64];
    tervuola_crews begun = {0}, ours, expert;
    double best = 1e300;
    for (uint32_t c = 0; c < s.cells; c++) {
        int west = c / 64 % 2;
        code[c] = c % 64 == (west ? 0 : 63) ? TERVUOLA_SOUTH : west ? TERVUOLA_WEST : TERVUOLA_EAST;
    }
    for (uint32_t crew = 0; crew < TERVUOLA_CREWS; crew++)
        accepted(tervuola_hand_in(64, 64, code, s.cells, crew, 0, &begun, work, sizeof work / sizeof *work));
    for (int run = 0; run < 10 * runs; run++) {
        expert = begun;
        double a = now();
        take_turns(s, code, UINT16_MAX, &expert);
        least(&best, now() - a);
    }
    ours = begun;
    accepted(tervuola_run(64, 64, code, s.cells, UINT16_MAX, &ours, work, sizeof work / sizeof *work));
    same("crews", "the state", &ours, &expert, sizeof ours);
    double check = least_run(s, code, 0, &begun, work, 10 * runs, 1), turned = least_run(s, code, UINT16_MAX, &begun, work, 10 * runs, 1);
    printf("  %-10s %-8s %7.2f  library %7.2f ns a turn  ratio %.2f\n", "turns", "expert's", best * 1e6 / UINT16_MAX, (turned - check) * 1e6 / UINT16_MAX,
           (turned - check) / best);
}

/* The best of some runs of the watersheds of starts, on one cell out of so many where it has a code, numbered by cell or shuffled. A start
 * is in its own watershed. */
static double least_watersheds(struct sheet s, const uint8_t *code, uint32_t out_of, int shuffled, uint32_t *starts, uint32_t *sheds,
                               uint32_t *work, int runs, int times)
{
    double best = 1e300;
    uint64_t state = 88172645463325252u;
    size_t n = s.cells, work_len = tervuola_work_size(s.rows, s.cols);
    for (uint32_t c = 0; c < s.cells; c++) starts[c] = c + 1;
    for (uint32_t c = s.cells; shuffled && c > 1; c--) {
        state ^= state << 13;
        state ^= state >> 7;
        state ^= state << 17;
        uint32_t with = (uint32_t)(state % c), label = starts[with];
        starts[with] = starts[c - 1];
        starts[c - 1] = label;
    }
    for (uint32_t c = 0; c < s.cells; c++)
        if (c % out_of || !code[c]) starts[c] = 0;
    for (int run = 0; run < runs; run++) {
        double a = now();
        for (int k = 0; k < times; k++)
            accepted(tervuola_watersheds(s.rows, s.cols, code, n, starts, n, sheds, n, work, work_len));
        least(&best, now() - a);
    }
    for (uint32_t c = 0; c < s.cells; c++)
        if (starts[c]) same("watersheds", "a start's own", &sheds[c], &starts[c], sizeof *sheds);
    return best;
}

/* forty culverts spread over the sheet, each at the first data cell from its part's beginning on, round the sheet, and at the elevation there; gives
 * how many: none where all is void */
enum { CULVERTS = 40 };
static size_t spread(struct sheet s, const int16_t *z, uint32_t *cells, int16_t *levels)
{
    size_t count = 0;
    for (size_t k = 0; k < CULVERTS; k++) {
        uint32_t cell = (uint32_t)((uint64_t)s.cells * k / CULVERTS), tries = 0;
        while (tries < s.cells && z[cell] == TERVUOLA_VOID) {
            cell = (cell + 1) % s.cells;
            tries++;
        }
        if (tries == s.cells) break;
        cells[count] = cell;
        levels[count++] = z[cell];
    }
    return count;
}

int main(int argc, char **argv)
{
    if (argc < 4) {
        fprintf(stderr, "usage: bench FILE.bil ROWS COLS [RUNS]\n");
        return 2;
    }
    struct sheet s = { (uint32_t)atoi(argv[2]), (uint32_t)atoi(argv[3]), 0 };
    if (s.rows < 1 || s.cols < 1 || s.rows > 4000 || s.cols > 4000) return 2;
    s.cells = s.rows * s.cols;
    size_t n = s.cells, work_len = tervuola_work_size(s.rows, s.cols);
    int runs = argc > 4 ? atoi(argv[4]) : 3;
    int16_t *z = get(2 * n), *f = get(2 * n), *f2 = get(2 * n);
    uint8_t *code = get(n), *byte = get(n), *way = get(n), *code2 = get(n);
    uint32_t *acc = get(4 * n), *lab = get(4 * n), *w0 = get(4 * n), *w1 = get(4 * n);
    uint32_t *acc2 = get(4 * n), *lab2 = get(4 * n), *work = get(4 * work_len);
    uint32_t *ponds = get(4 * n), *cells = get(4 * n);
    int16_t *level = get(2 * n);
    uint64_t *volume = get(8 * n);
    struct four expert = { f, code, acc, lab }, library = { f2, code2, acc2, lab2 };
    FILE *in = fopen(argv[1], "rb");
    if (!in || fread(z, 2, n, in) != n) { perror(argv[1]); return 2; }
    fclose(in);
    make_tables(s);
    /* a small sheet is worked out many times between two readings of the clock */
    int times = n < 100000 ? (int)(2000000 / n) + 1 : 1;
    double base[B_N], ours[B_N], listed = 1e300, opened = 1e300, closed = 1e300, oblong = 1e300;
    const uint32_t all_but_south = TERVUOLA_CLOSED_WEST + TERVUOLA_CLOSED_EAST + TERVUOLA_CLOSED_NORTH;
    uint32_t culvert_cells[CULVERTS];
    int16_t culvert_levels[CULVERTS];
    const size_t culverts = spread(s, z, culvert_cells, culvert_levels);
    for (int k = 0; k < B_N; k++) base[k] = ours[k] = 1e300;
    for (int run = 0; run < runs; run++) {
        double t[7] = { 0 }, u[6] = { 0 };
        for (int k = 0; k < times; k++) {
            double a = now();
            uint32_t shores = outlets(s, z, code, byte, w0);
            double b = now();
            fill(s, z, code, shores, f, w0, w1);
            double c = now();
            directions(s, f, code, shores, byte, w1);
            double d = now();
            ways(s, code, way);
            double e = now();
            counts(s, way, acc, byte);
            double g = now();
            labels(s, code, way, lab);
            double h = now();
            t[0] += b - a; t[1] += c - b; t[2] += d - c; t[3] += e - d; t[4] += g - e; t[5] += h - g; t[6] += h - a;
        }
        least(&base[B_FILL], t[0] + t[1]);
        least(&base[B_DIR], t[2]);
        least(&base[B_ACC], t[3] + t[4]);
        least(&base[B_LAB], t[3] + t[5]);
        least(&base[B_ALL], t[6]);
        for (int k = 0; k < times; k++) {
            double a = now();
            accepted(tervuola_fill(s.rows, s.cols, 0, z, n, f2, n, work, work_len));
            double b = now();
            accepted(tervuola_directions(s.rows, s.cols, 0, 1, 1, f, n, code2, n, work, work_len));
            double c = now();
            accepted(tervuola_counts(s.rows, s.cols, code, n, acc2, n, work, work_len));
            double d = now();
            accepted(tervuola_labels(s.rows, s.cols, code, n, lab2, n, work, work_len));
            double e = now();
            u[0] += b - a; u[1] += c - b; u[2] += d - c; u[3] += e - d;
        }
        same_four("the steps", expert, library, n);
        clear(library, n);
        for (int k = 0; k < times; k++) {
            double a = now();
            accepted(tervuola_drain(s.rows, s.cols, 0, 1, 1, z, n, f2, n, code2, n, acc2, n, lab2, n, work, work_len));
            u[4] += now() - a;
        }
        same_four("the one call", expert, library, n);
        for (int k = 0; k < B_N; k++) least(&ours[k], u[k]);
        accepted(tervuola_directions(s.rows, s.cols, 0, 7, 7, f, n, code2, n, work, work_len));
        same("square cells of any width", "the codes", code2, code, n);
        clear(library, n);
        double begun = now();
        for (int k = 0; k < times; k++) accepted(tervuola_directions(s.rows, s.cols, 0, 3, 4, f, n, code2, n, work, work_len));
        least(&oblong, now() - begun);
        begun = now();
        for (int k = 0; k < times; k++)
            accepted(tervuola_drain(s.rows, s.cols, all_but_south, 1, 1, z, n, f2, n, code2, n, acc2, n, lab2, n, work, work_len));
        least(&closed, now() - begun);
        for (size_t c = 0; c < n; c++) /* water has fewer ways out */
            if (f2[c] < f[c]) {
                fprintf(stderr, "bench: closed sides: a filled elevation is lower\n");
                exit(1);
            }
        double o = 0;
        clear(library, n);
        for (int k = 0; k < times; k++) {
            double a = now();
            accepted_number(tervuola_culverts(s.rows, s.cols, 0, 1, 1, z, n, culvert_cells, culverts, culvert_levels, culverts, f2, n, code2, n, acc2, n, lab2, n,
                                              work, work_len).number);
            o += now() - a;
        }
        least(&opened, o);
        same_four("the culverts", expert, library, n);
        tervuola_counted found = { 0, 0, 0 };
        double a = now();
        for (int k = 0; k < times; k++)
            found = tervuola_ponds(s.rows, s.cols, 0, z, n, ponds, n, level, n, cells, n, volume, n, work, work_len);
        least(&listed, now() - a);
        accepted_number(found.number);
        uint64_t volumes = 0, differences = 0;
        for (uint32_t k = 0; k < found.count; k++) volumes += volume[k];
        for (size_t c = 0; c < n; c++) differences += (uint64_t)(f[c] - z[c]);
        same("ponds", "the sum of the volumes", &volumes, &differences, sizeof volumes);
    }
    for (int k = 0; k < B_N; k++) line(names[k], "baseline", base[k], ours[k], (double)n * times);
    line("ponds", "fill", ours[B_FILL], listed, (double)n * times);
    line("culverts", "one call", ours[B_ALL], opened, (double)n * times);
    line("oblong", "square", ours[B_DIR], oblong, (double)n * times);
    line("closed", "one call", ours[B_ALL], closed, (double)n * times);
    tervuola_crews none = {0};
    line("run", "labels", ours[B_LAB], least_run(s, code, 0, &none, work, runs, times), (double)n * times);
    uint32_t few = s.cells / 1000 + 1; /* and not all of them in one column */
    line("starts", "labels", ours[B_LAB], least_watersheds(s, code, few, 0, acc2, lab2, work, runs, times), (double)n * times);
    line("all starts", "labels", ours[B_LAB], least_watersheds(s, code, 1, 0, acc2, lab2, work, runs, times), (double)n * times);
    line("shuffled", "labels", ours[B_LAB], least_watersheds(s, code, 1, 1, acc2, lab2, work, runs, times), (double)n * times);
    turn_line(runs);
    return 0;
}
