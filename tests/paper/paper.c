/* The calls on the printed example of document 000: the fill of 2a is 2b, the codes of 2c give 2d, 2f and 2g, and these give Table 7 but for its first pair. */
#include "tervuola.h"
#include "tables.h"
#include <stdio.h>
#include <string.h>

#define SAME(what, a, b)                                        \
    do {                                                        \
        if (memcmp((a), (b), sizeof(b))) {                      \
            printf("paper: %s differs from the table\n", what); \
            return 1;                                           \
        }                                                       \
    } while (0)
#define ACCEPTED(answer)                                              \
    do {                                                              \
        if ((answer).number) {                                        \
            printf("paper: refused with %u\n", (unsigned)(answer).number); \
            return 1;                                                 \
        }                                                             \
    } while (0)

/* Table 7: smaller and larger label, elevation, line, sample. The paper has 737 at line 2, sample 4 for the pair 0-1; its rule gives 740 at line 1, sample 4. */
static const int table7[12][5] = {
    { 0, 1, 740, 1, 4 }, { 0, 2, 786, 4, 1 }, { 0, 3, 738, 7, 8 }, { 0, 4, 733, 8, 7 }, { 0, 5, 728, 9, 7 }, { 1, 2, 733, 4, 5 },
    { 1, 3, 797, 4, 10 }, { 1, 4, 785, 4, 9 }, { 2, 4, 733, 5, 6 }, { 2, 5, 762, 8, 5 }, { 3, 4, 738, 7, 8 }, { 4, 5, 733, 8, 7 },
};

/* The starts of 2f with other labels, by rising cell number, and the answer to them. */
static const uint32_t start_cells[5] = { 40, 65, 79, 90, 102 };
static const struct {
    uint32_t labels[5], number, place;
} gauges[] = {
    { { 1, 2, 3, 4, 2 }, TERVUOLA_REPEATED_LABEL, 102 }, { { 2, 1, 3, 1, 2 }, TERVUOLA_REPEATED_LABEL, 90 },
    { { 1, 2, 3, 2, 1 }, TERVUOLA_REPEATED_LABEL, 102 }, { { 7, 7, 3, 3, 9 }, TERVUOLA_REPEATED_LABEL, 90 },
    { { 1, 9, 9, 9, 2 }, TERVUOLA_REPEATED_LABEL, 79 }, { { 4, 4, 4, 4, 4 }, TERVUOLA_REPEATED_LABEL, 65 },
    { { 5, 4, 3, 2, 1 }, TERVUOLA_OK, 0 }, { { 256, 1, 65536, 4294967295u, 16777216 }, TERVUOLA_OK, 0 },
};

int main(void)
{
    static int16_t filled[144];
    static uint32_t counts[144], numbers[144], sheds[144], work[576];
    static uint32_t smaller[20], larger[20], cell[20];
    static int16_t elevation[20];
    tervuola_answer a = tervuola_fill(12, 12, 0, original, 144, filled, 144, work, 576);
    ACCEPTED(a);
    SAME("the filled sheet (2b)", filled, depressionless);
    a = tervuola_counts(12, 12, directions, 144, counts, 144, work, 576);
    ACCEPTED(a);
    SAME("the flow accumulation (2d)", counts, accumulation);
    tervuola_counted k = tervuola_starts(12, 12, directions, 144, counts, 144, 10, numbers, 144, work, 576);
    ACCEPTED(k);
    SAME("the starts (2f)", numbers, starts);
    if (k.count != 5) {
        printf("paper: %u starts, not 5\n", (unsigned)k.count);
        return 1;
    }
    a = tervuola_watersheds(12, 12, directions, 144, numbers, 144, sheds, 144, work, 576);
    ACCEPTED(a);
    SAME("the watersheds (2g)", sheds, watersheds);
    /* two gauges with one label are refused, and 2g stays; other labels name the same watersheds */
    for (size_t i = 0; i < sizeof gauges / sizeof *gauges; i++) {
        static uint32_t labelled[144], result[144], wanted[144];
        memcpy(result, watersheds, sizeof result);
        for (int k = 0; k < 5; k++) labelled[start_cells[k]] = gauges[i].labels[k];
        for (int c = 0; c < 144; c++) wanted[c] = gauges[i].number || !watersheds[c] ? watersheds[c] : gauges[i].labels[watersheds[c] - 1];
        a = tervuola_watersheds(12, 12, directions, 144, labelled, 144, result, 144, work, 576);
        if (a.number != gauges[i].number || a.place != gauges[i].place) {
            printf("paper: number %u and place %u for labels %d\n", (unsigned)a.number, (unsigned)a.place, (int)i);
            return 1;
        }
        SAME("a watershed with another label, or beside a refusal,", result, wanted);
    }
    /* with columns of length 0 the place is the number of pairs */
    k = tervuola_pour_points(12, 12, depressionless, 144, sheds, 144, NULL, 0, NULL, 0, NULL, 0, NULL, 0);
    if (k.number != TERVUOLA_SHORT_COLUMNS || k.place != 12) {
        printf("paper: number %u and place %u for columns of length 0\n", (unsigned)k.number, (unsigned)k.place);
        return 1;
    }
    k = tervuola_pour_points(12, 12, depressionless, 144, sheds, 144, smaller, 20, larger, 20, elevation, 20, cell, 20);
    ACCEPTED(k);
    if (k.count != 12) {
        printf("paper: %u pairs, not 12\n", (unsigned)k.count);
        return 1;
    }
    for (int i = 0; i < 12; i++) {
        int got[5] = { (int)smaller[i], (int)larger[i], elevation[i], (int)(cell[i] / 12 + 1), (int)(cell[i] % 12 + 1) };
        if (memcmp(got, table7[i], sizeof got)) {
            printf("paper: pour point %d is %d-%d, %d at line %d, sample %d\n", i, got[0], got[1], got[2], got[3], got[4]);
            return 1;
        }
    }
    printf("paper: Tables 2b, 2d, 2f, 2g and 7 of document 000\n");
    return 0;
}
