/*
 * A sheet to send on: write <sheet. The sheet is read as text (docs/FORMATS.md) from standard input and written as text, upper-case letters and
 * nothing optional, so that two crews have one sheet exactly when this prints one text for them.
 */
#include "tervuola.h"
#include <stdio.h>

static int16_t elevations[TERVUOLA_TEXT_CELLS];

static int refused(uint32_t number, uint32_t place)
{
    fprintf(stderr, "%s (place %u)\n", tervuola_text(number), (unsigned)place);
    return 1;
}

int main(void)
{
    static uint8_t text[TERVUOLA_TEXT_BYTES + 1]; /* a byte more, so that a text that is too long is seen */
    size_t length = fread(text, 1, sizeof text, stdin);
    tervuola_dimensions d = tervuola_read(text, length, elevations, TERVUOLA_TEXT_CELLS);
    if (d.number != TERVUOLA_OK) return refused(d.number, d.place);
    tervuola_counted w = tervuola_write(d.rows, d.cols, elevations, (size_t)d.rows * d.cols, text, sizeof text);
    if (w.number != TERVUOLA_OK) return refused(w.number, w.place);
    return fwrite(text, 1, w.count, stdout) == w.count && fflush(stdout) == 0 ? 0 : 1;
}
