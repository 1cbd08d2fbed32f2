/*
 * All culverts of a road: culverts [CELL LEVEL].. <sheet. The sheet is read as text (docs/FORMATS.md) from standard input; the pairs, up to
 * 2,304 of them, are cells, each row * columns + column from 0, and the levels to which they are opened. Prints the filled sheet without the
 * culverts and with them, and for each pair how many other cells drain through its cell, and where that water leaves the sheet.
 */
#include "tervuola.h"
#include <stdio.h>
#include <stdlib.h>

enum { CELLS = TERVUOLA_TEXT_CELLS };
static int16_t elevations[CELLS], filled[CELLS], plain[CELLS], levels[CELLS];
static uint8_t codes[CELLS];
static uint32_t counts[CELLS], labels[CELLS], work[4 * CELLS], cells[CELLS];

static int refused(uint32_t number, size_t place)
{
    fprintf(stderr, "%s (place %zu)\n", tervuola_text(number), place);
    return 1;
}

static void print_sheet(const char *title, const int16_t *sheet, uint32_t rows, uint32_t cols)
{
    printf("%s\n", title);
    for (size_t c = 0; c < (size_t)rows * cols; c++) printf("%7d%s", sheet[c], (c + 1) % cols ? "" : "\n");
}

/* a whole number from low to high, and nothing behind it */
static int number(const char *text, long long low, long long high, long long *value)
{
    char *end;
    *value = strtoll(text, &end, 10);
    return end != text && !*end && *value >= low && *value <= high;
}

/* the pair at a place of the list */
static int pair(char **text, size_t k)
{
    long long cell, level;
    if (!number(text[0], 0, UINT32_MAX, &cell) || !number(text[1], INT16_MIN, INT16_MAX, &level)) return 0;
    cells[k] = (uint32_t)cell;
    levels[k] = (int16_t)level;
    return 1;
}

int main(int argc, char **argv)
{
    static uint8_t text[TERVUOLA_TEXT_BYTES + 1]; /* a byte more, so that a text that is too long is seen */
    size_t count = 0, given = argc > 0 ? (size_t)argc - 1 : 0;
    while (count < CELLS && 2 * count + 1 < given && pair(argv + 1 + 2 * count, count)) count++;
    if (2 * count != given) {
        fprintf(stderr, "usage: culverts [CELL LEVEL].. <sheet\n");
        return 2;
    }
    size_t length = fread(text, 1, sizeof text, stdin);
    tervuola_dimensions d = tervuola_read(text, length, elevations, CELLS);
    if (d.number != TERVUOLA_OK) return refused(d.number, d.place);
    size_t n = (size_t)d.rows * d.cols;
    tervuola_answer a = tervuola_fill(d.rows, d.cols, 0, elevations, n, plain, n, work, 4 * CELLS);
    if (a.number != TERVUOLA_OK) return refused(a.number, a.place);
    tervuola_located l = tervuola_culverts(d.rows, d.cols, 0, 1, 1, elevations, n, cells, count, levels, count, filled, n, codes, n, counts, n, labels, n,
                                           work, 4 * CELLS);
    if (l.number != TERVUOLA_OK) return refused(l.number, l.place);
    print_sheet("filled, without the culverts:", plain, d.rows, d.cols);
    print_sheet("filled, with them:", filled, d.rows, d.cols);
    for (size_t k = 0; k < count; k++)
        printf("other cells that drain through cell %u: %u, out at cell %u\n", (unsigned)cells[k], (unsigned)counts[cells[k]], (unsigned)labels[cells[k]] - 1);
    return 0;
}
