/*
 * A sheet cut from larger country: sides CLOSED <sheet. CLOSED adds up the sides where the country goes on: west 1, east 2, north 4, south 8.
 * The sheet is read as text (docs/FORMATS.md) from standard input. Prints the filled sheet with every side open and with these closed, and
 * then, for each cell where water leaves, how many other cells drain out there.
 */
#include "tervuola.h"
#include <stdio.h>
#include <stdlib.h>

enum { CELLS = TERVUOLA_TEXT_CELLS };
static int16_t elevations[CELLS], filled[CELLS], plain[CELLS];
static uint8_t codes[CELLS];
static uint32_t counts[CELLS], labels[CELLS], work[4 * CELLS];

static int refused(uint32_t number, uint32_t place)
{
    fprintf(stderr, "%s (place %u)\n", tervuola_text(number), (unsigned)place);
    return 1;
}

static void print_sheet(const char *title, const int16_t *sheet, uint32_t rows, uint32_t cols)
{
    printf("%s\n", title);
    for (size_t c = 0; c < (size_t)rows * cols; c++) printf("%7d%s", sheet[c], (c + 1) % cols ? "" : "\n");
}

int main(int argc, char **argv)
{
    static uint8_t text[TERVUOLA_TEXT_BYTES + 1]; /* a byte more, so that a text that is too long is seen */
    char *end = NULL;
    long sides = argc == 2 ? strtol(argv[1], &end, 10) : -1;
    if (sides < 0 || sides > INT32_MAX || end == argv[1] || *end) {
        fprintf(stderr, "usage: sides CLOSED <sheet\n");
        return 2;
    }
    size_t length = fread(text, 1, sizeof text, stdin);
    tervuola_dimensions d = tervuola_read(text, length, elevations, CELLS);
    if (d.number != TERVUOLA_OK) return refused(d.number, d.place);
    size_t n = (size_t)d.rows * d.cols;
    tervuola_answer a = tervuola_fill(d.rows, d.cols, 0, elevations, n, plain, n, work, 4 * CELLS);
    if (a.number != TERVUOLA_OK) return refused(a.number, a.place);
    a = tervuola_drain(d.rows, d.cols, (uint32_t)sides, 1, 1, elevations, n, filled, n, codes, n, counts, n, labels, n, work, 4 * CELLS);
    if (a.number != TERVUOLA_OK) return refused(a.number, a.place);
    print_sheet("filled, with every side open:", plain, d.rows, d.cols);
    print_sheet("filled, with closed sides:", filled, d.rows, d.cols);
    for (size_t c = 0; c < n; c++)
        if (labels[c] == c + 1) printf("other cells that drain out at cell %u: %u\n", (unsigned)c, (unsigned)counts[c]);
    return 0;
}
