/*
 * The walked stream and the computed one: stream CELL.. <sheet. The sheet is read as text (docs/FORMATS.md) from standard input; the cells,
 * each row * columns + column from 0, are those that a crew walked, in the order in which the water passes them. Prints them, the route that
 * is worked out from the first of them, and the part of the walk that both end with.
 */
#include "tervuola.h"
#include <stdio.h>
#include <stdlib.h>

enum { CELLS = TERVUOLA_TEXT_CELLS };
static int16_t elevations[CELLS], filled[CELLS];
static uint8_t codes[CELLS];
static uint32_t counts[CELLS], labels[CELLS], work[4 * CELLS], walk[CELLS], route[CELLS];

static int refused(uint32_t number, size_t place)
{
    fprintf(stderr, "%s (place %zu)\n", tervuola_text(number), place);
    return 1;
}

/* a number of a cell, and nothing behind it */
static int cell_number(const char *text, uint32_t *cell)
{
    char *end;
    long value = strtol(text, &end, 10);
    *cell = (uint32_t)value;
    return end != text && !*end && value >= 0 && value <= INT32_MAX;
}

/* The route from a cell of the sheet: while a cell has a code, the cell that the code points at. The codes are of a drained sheet, so that
   it ends. */
static size_t follow(uint32_t rows, uint32_t cols, uint32_t cell)
{
    static const int down[8] = {-1, 0, 1, 1, 1, 0, -1, -1}, right[8] = {1, 1, 1, 0, -1, -1, -1, 0};
    int32_t row = (int32_t)(cell / cols), col = (int32_t)(cell % cols);
    size_t length = 0;
    while (row >= 0 && row < (int32_t)rows && col >= 0 && col < (int32_t)cols) {
        uint32_t here = (uint32_t)row * cols + (uint32_t)col;
        int position = 0;
        if (codes[here] == 0) break;
        route[length++] = here;
        while (codes[here] != 1 << position) position++;
        row += down[position];
        col += right[position];
    }
    return length;
}

static void print_cells(const char *name, const uint32_t *cells, size_t count)
{
    printf("%s", name);
    for (size_t k = 0; k < count; k++) printf(" %u", (unsigned)cells[k]);
    printf("\n");
}

int main(int argc, char **argv)
{
    static uint8_t text[TERVUOLA_TEXT_BYTES + 1]; /* a byte more, so that a text that is too long is seen */
    size_t walked = 0;
    while (walked < CELLS && walked + 1 < (size_t)argc && cell_number(argv[walked + 1], &walk[walked])) walked++;
    if (walked == 0 || walked + 1 != (size_t)argc) {
        fprintf(stderr, "usage: stream CELL.. <sheet\n");
        return 2;
    }
    size_t length = fread(text, 1, sizeof text, stdin);
    tervuola_dimensions d = tervuola_read(text, length, elevations, CELLS);
    if (d.number != TERVUOLA_OK) return refused(d.number, d.place);
    size_t n = (size_t)d.rows * d.cols;
    tervuola_answer a = tervuola_drain(d.rows, d.cols, 0, 1, 1, elevations, n, filled, n, codes, n, counts, n, labels, n, work, 4 * CELLS);
    if (a.number != TERVUOLA_OK) return refused(a.number, a.place);
    /* the walk alone, so that the place is one of it and its first cell can be followed */
    tervuola_located l = tervuola_check_lists(d.rows, d.cols, walk, walked, NULL, 0);
    if (l.number != TERVUOLA_OK) return refused(l.number, l.place);
    size_t computed = follow(d.rows, d.cols, walk[0]);
    /* both lists pass the check: a whole route always does */
    tervuola_part part = tervuola_shared_ending(d.rows, d.cols, walk, walked, route, computed);
    print_cells("walked:", walk, walked);
    print_cells("computed:", route, computed);
    print_cells("shared:", tervuola_part_of(walk, part), part.count);
    return 0;
}
