/*
 * A sheet of oblong cells: shape WIDTH HEIGHT <sheet. WIDTH, from west to east, and HEIGHT, from north to south, are whole numbers from 1
 * to 1,000 in any one unit, such as the metres of a cell. The sheet is read as text (docs/FORMATS.md) from standard input. Prints the
 * direction codes with cells of this shape, and each cell where square ones would send the water another way.
 */
#include "tervuola.h"
#include <stdio.h>
#include <stdlib.h>

enum { CELLS = TERVUOLA_TEXT_CELLS };
static int16_t elevations[CELLS], filled[CELLS];
static uint8_t codes[CELLS], square[CELLS];
static uint32_t counts[CELLS], labels[CELLS], work[4 * CELLS];

static int refused(uint32_t number, uint32_t place)
{
    fprintf(stderr, "%s (place %u)\n", tervuola_text(number), (unsigned)place);
    return 1;
}

/* a whole number, or one that no cell has */
static uint32_t side_of(const char *text)
{
    char *end = NULL;
    unsigned long k = strtoul(text, &end, 10);
    return end == text || *end || *text == '-' || k > TERVUOLA_MAX_CELL_SIDE ? 0 : (uint32_t)k;
}

int main(int argc, char **argv)
{
    static uint8_t text[TERVUOLA_TEXT_BYTES + 1]; /* a byte more, so that a text that is too long is seen */
    if (argc != 3) {
        fprintf(stderr, "usage: shape WIDTH HEIGHT <sheet\n");
        return 2;
    }
    uint32_t width = side_of(argv[1]), height = side_of(argv[2]);
    size_t length = fread(text, 1, sizeof text, stdin);
    tervuola_dimensions d = tervuola_read(text, length, elevations, CELLS);
    if (d.number != TERVUOLA_OK) return refused(d.number, d.place);
    size_t n = (size_t)d.rows * d.cols;
    tervuola_answer a = tervuola_drain(d.rows, d.cols, 0, width, height, elevations, n, filled, n, codes, n, counts, n, labels, n, work,
                                       4 * CELLS);
    if (a.number != TERVUOLA_OK) return refused(a.number, a.place);
    /* the filled sheet is the same for every shape */
    a = tervuola_directions(d.rows, d.cols, 0, 1, 1, filled, n, square, n, work, 4 * CELLS);
    if (a.number != TERVUOLA_OK) return refused(a.number, a.place);
    printf("codes, with cells of %u by %u:\n", (unsigned)width, (unsigned)height);
    for (size_t c = 0; c < n; c++) printf("%5u%s", codes[c], (c + 1) % d.cols ? "" : "\n");
    for (size_t c = 0; c < n; c++)
        if (codes[c] != square[c]) printf("cell %u: %u, with square cells %u\n", (unsigned)c, codes[c], square[c]);
    return 0;
}
