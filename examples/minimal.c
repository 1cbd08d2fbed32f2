/* A sheet in an array, every side of it open; the four results printed. */
#include "tervuola.h"
#include <stdio.h>

int main(void)
{
    static const int16_t elevations[9] = { 5, 5, 5, 5, 1, 4, 5, 5, 5 };
    int16_t filled[9];
    uint8_t codes[9];
    uint32_t counts[9], labels[9], work[36];
    tervuola_answer answer = tervuola_drain(3, 3, 0, 1, 1, elevations, 9, filled, 9, codes, 9, counts, 9, labels, 9, work, 36);
    if (answer.number != TERVUOLA_OK) {
        fprintf(stderr, "%s (place %u)\n", tervuola_text(answer.number), (unsigned)answer.place);
        return 1;
    }
    for (int c = 0; c < 9; c++)
        printf("cell %d: filled %d, code %u, count %u, basin %u\n", c, filled[c], (unsigned)codes[c], (unsigned)counts[c], (unsigned)labels[c]);
    return 0;
}
