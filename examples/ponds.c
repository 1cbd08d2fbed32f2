/* The ponds of a sheet that is read as text (docs/FORMATS.md) from standard input: the sheet of their numbers, then a line for each. */
#include "tervuola.h"
#include <stdio.h>

static int refused(uint32_t number, uint32_t place)
{
    fprintf(stderr, "%s (place %u)\n", tervuola_text(number), (unsigned)place);
    return 1;
}

int main(void)
{
    enum { CELLS = TERVUOLA_TEXT_CELLS };
    static uint8_t text[TERVUOLA_TEXT_BYTES + 1]; /* a byte more, so that a text that is too long is seen */
    static int16_t elevations[CELLS], level[CELLS];
    static uint32_t ponds[CELLS], cells[CELLS], work[4 * CELLS];
    static uint64_t volume[CELLS];
    size_t length = fread(text, 1, sizeof text, stdin);
    tervuola_dimensions d = tervuola_read(text, length, elevations, CELLS);
    if (d.number != TERVUOLA_OK) return refused(d.number, d.place);
    size_t n = (size_t)d.rows * d.cols;
    tervuola_counted a = tervuola_ponds(d.rows, d.cols, 0, elevations, n, ponds, n, level, CELLS, cells, CELLS, volume, CELLS, work, 4 * CELLS);
    if (a.number != TERVUOLA_OK) return refused(a.number, a.place);
    for (size_t c = 0; c < n; c++) printf("%4u%s", (unsigned)ponds[c], (c + 1) % d.cols ? "" : "\n");
    for (uint32_t k = 0; k < a.count; k++)
        printf("pond %u: level %d, cells %u, volume %llu\n", (unsigned)k + 1, level[k], (unsigned)cells[k], (unsigned long long)volume[k]);
    return 0;
}
