/*
 * Where the water of each crew's cell leaves the sheet: crews TURNS CELL.. <sheet. The sheet is read as text (docs/FORMATS.md) from
 * standard input; crews 0, 1, 2 .. hand in the cells, each row * columns + column from 0, up to 32 of them. Their routes are traced in
 * runs of TURNS turns, as a screen would that has something else to do between them. Prints after each run what each crew gets that has
 * not collected yet, and at the end the number of turns that moved or finished a trace.
 */
#include "tervuola.h"
#include <stdio.h>
#include <stdlib.h>

enum { CELLS = TERVUOLA_TEXT_CELLS };
static int16_t elevations[CELLS], filled[CELLS];
static uint8_t codes[CELLS];
static uint32_t counts[CELLS], labels[CELLS], work[4 * CELLS];

static int refused(uint32_t number, uint32_t place)
{
    fprintf(stderr, "%s (place %u)\n", tervuola_text(number), (unsigned)place);
    return 1;
}

/* a whole number up to the largest, and nothing behind it */
static int whole_number(const char *text, unsigned long largest, uint32_t *value)
{
    char *end;
    unsigned long k = strtoul(text, &end, 10);
    *value = (uint32_t)k;
    return *text >= '0' && *text <= '9' && !*end && k <= largest;
}

/* The first `count` crews ask for their traces. Gives how many of them are still waiting; one with no trace has collected before. */
static uint32_t collect_all(tervuola_crews *crews, uint32_t count)
{
    uint32_t waiting = 0;
    for (uint32_t crew = 0; crew < count; crew++) {
        tervuola_collected c = tervuola_collect(crew, crews);
        if (c.status == TERVUOLA_FINISHED) printf("crew %u: drains out at cell %u\n", (unsigned)crew, (unsigned)c.cell);
        if (c.status == TERVUOLA_WAITING) printf("crew %u: waiting\n", (unsigned)crew);
        waiting += c.status == TERVUOLA_WAITING;
    }
    return waiting;
}

int main(int argc, char **argv)
{
    static uint8_t text[TERVUOLA_TEXT_BYTES + 1]; /* a byte more, so that a text that is too long is seen */
    tervuola_crews crews = {0};                   /* no trace is handed in */
    uint32_t turns = 0, cell, count = 0;
    int good = argc > 2 && whole_number(argv[1], UINT16_MAX, &turns) && turns > 0;
    for (int k = 2; k < argc; k++) good = good && whole_number(argv[k], UINT32_MAX, &cell);
    if (!good) {
        fprintf(stderr, "usage: crews TURNS CELL.. <sheet\n");
        return 2;
    }
    size_t length = fread(text, 1, sizeof text, stdin);
    tervuola_dimensions d = tervuola_read(text, length, elevations, CELLS);
    if (d.number != TERVUOLA_OK) return refused(d.number, d.place);
    size_t n = (size_t)d.rows * d.cols;
    tervuola_answer a = tervuola_drain(d.rows, d.cols, 0, 1, 1, elevations, n, filled, n, codes, n, counts, n, labels, n, work, 4 * CELLS);
    if (a.number != TERVUOLA_OK) return refused(a.number, a.place);
    for (; count + 2 < (uint32_t)argc; count++) {
        whole_number(argv[count + 2], UINT32_MAX, &cell);
        a = tervuola_hand_in(d.rows, d.cols, codes, n, count, cell, &crews, work, 4 * CELLS);
        if (a.number != TERVUOLA_OK) return refused(a.number, a.place);
    }
    /* the codes stay the same, so that every trace is finished in the end */
    do {
        a = tervuola_run(d.rows, d.cols, codes, n, (uint16_t)turns, &crews, work, 4 * CELLS);
        if (a.number != TERVUOLA_OK) return refused(a.number, a.place);
        printf("after a run of %u turns:\n", (unsigned)turns);
    } while (collect_all(&crews, count) > 0);
    printf("turns that moved or finished a trace: %llu\n", (unsigned long long)tervuola_turns_worked(&crews));
    return 0;
}
