/* What the header gives without the library. */
#include "tervuola.h"
#include <stdio.h>
#include <string.h>

#define EXPECT(fact)                                     \
    do {                                                 \
        if (!(fact)) {                                   \
            printf("header: %s does not hold\n", #fact); \
            return 1;                                    \
        }                                                \
    } while (0)

/* the calls that the requests brought or moved, to the letter: a declaration that differs is refused */
#ifdef __cplusplus
extern "C" {
#endif
tervuola_answer tervuola_fill(uint32_t, uint32_t, uint32_t, const int16_t *, size_t, int16_t *, size_t, uint32_t *, size_t);
tervuola_counted tervuola_ponds(uint32_t, uint32_t, uint32_t, const int16_t *, size_t, uint32_t *, size_t, int16_t *, size_t, uint32_t *, size_t,
                                uint64_t *, size_t, uint32_t *, size_t);
tervuola_answer tervuola_directions(uint32_t, uint32_t, uint32_t, uint32_t, uint32_t, const int16_t *, size_t, uint8_t *, size_t, uint32_t *, size_t);
tervuola_answer tervuola_drain(uint32_t, uint32_t, uint32_t, uint32_t, uint32_t, const int16_t *, size_t, int16_t *, size_t, uint8_t *, size_t,
                               uint32_t *, size_t, uint32_t *, size_t, uint32_t *, size_t);
tervuola_located tervuola_culverts(uint32_t, uint32_t, uint32_t, uint32_t, uint32_t, const int16_t *, size_t, const uint32_t *, size_t, const int16_t *,
                                   size_t, int16_t *, size_t, uint8_t *, size_t, uint32_t *, size_t, uint32_t *, size_t, uint32_t *, size_t);
tervuola_counted tervuola_write(uint32_t, uint32_t, const int16_t *, size_t, uint8_t *, size_t);
tervuola_located tervuola_check_lists(uint32_t, uint32_t, const uint32_t *, size_t, const uint32_t *, size_t);
tervuola_part tervuola_shared_ending(uint32_t, uint32_t, const uint32_t *, size_t, const uint32_t *, size_t);
tervuola_answer tervuola_hand_in(uint32_t, uint32_t, const uint8_t *, size_t, uint32_t, uint32_t, tervuola_crews *, uint32_t *, size_t);
tervuola_answer tervuola_run(uint32_t, uint32_t, const uint8_t *, size_t, uint16_t, tervuola_crews *, uint32_t *, size_t);
tervuola_collected tervuola_collect(uint32_t, tervuola_crews *);
#ifdef __cplusplus
}
#endif

/* the macro is a constant: it can be an array's length */
static uint32_t work[TERVUOLA_WORK_SIZE(3, 2 + 1)];

int main(void)
{
    uint32_t k, numbers[9], cells[2];
    int16_t elevations[9], filled[9], level[2];
    uint8_t codes[9];
    uint64_t volume[2];
    const tervuola_part none = {0, 0}, last = {1, 1};
    tervuola_located located;
    tervuola_crews crews = {0};
    work[35] = 1;
    EXPECT(sizeof work == 144 && work[35] == 1);
    EXPECT(TERVUOLA_WORK_SIZE(TERVUOLA_MAX_SIDE, TERVUOLA_MAX_SIDE) == 64000000u);
    for (k = 1; k <= TERVUOLA_MAX_SIDE; k++) EXPECT(tervuola_work_size(k, 7) == TERVUOLA_WORK_SIZE(k, 7));
    EXPECT(tervuola_work_size(TERVUOLA_MAX_SIDE + 1, 1) == 0 && tervuola_work_size(1, TERVUOLA_MAX_SIDE + 1) == 0);
    EXPECT(tervuola_work_size(1, 1) == 4);
    EXPECT(tervuola_work_size(4000, 4000) == 64000000u);
    EXPECT(tervuola_work_size(0, 1) == 0);
    EXPECT(TERVUOLA_VOID == -32768);
    EXPECT(TERVUOLA_MAX_SIDE == 4000);
    EXPECT(sizeof(tervuola_answer) == 8 && sizeof(tervuola_counted) == 12 && sizeof(tervuola_dimensions) == 16);
    /* the types of the buffers; nothing is called under sizeof */
    EXPECT(sizeof tervuola_ponds(3, 3, 0, elevations, 9, numbers, 9, level, 2, cells, 2, volume, 2, work, 36) == sizeof(tervuola_counted));
    EXPECT(sizeof tervuola_culverts(3, 3, 0, 1, 1, elevations, 9, cells, 2, level, 2, filled, 9, codes, 9, numbers, 9, numbers, 9, work, 36)
           == sizeof(tervuola_located));
    EXPECT(sizeof tervuola_culverts(3, 3, 0, 1, 1, elevations, 9, NULL, 0, NULL, 0, filled, 9, codes, 9, numbers, 9, numbers, 9, work, 36).place
           == sizeof(size_t));
    EXPECT(strcmp(tervuola_text(0), "accepted") == 0);
    for (k = 1; k <= 24; k++) {
        EXPECT(strcmp(tervuola_text(k), "unknown number") != 0);
        EXPECT(strcmp(tervuola_text(k), tervuola_text(k - 1)) != 0);
    }
    EXPECT(strstr(tervuola_text(14), "pairs") && strstr(tervuola_text(14), "ponds"));
    EXPECT(strstr(tervuola_text(7), "lists of culverts") && strstr(tervuola_text(15), "culvert's cell") && strstr(tervuola_text(16), "culvert's level"));
    EXPECT(TERVUOLA_BAD_CELL == 15 && TERVUOLA_BAD_LEVEL == 16 && TERVUOLA_BAD_SIDES == 17 && TERVUOLA_NO_OUTLET == 18);
    EXPECT(TERVUOLA_BAD_LIST == 19 && TERVUOLA_BAD_CELL_SHAPE == 20 && TERVUOLA_MAX_CELL_SIDE == 1000);
    EXPECT(TERVUOLA_CLOSED_WEST == 1 && TERVUOLA_CLOSED_EAST == 2 && TERVUOLA_CLOSED_NORTH == 4 && TERVUOLA_CLOSED_SOUTH == 8);
    EXPECT(TERVUOLA_BAD_CREW == 21 && TERVUOLA_NOT_COLLECTED == 22 && TERVUOLA_NO_ROUTE == 23 && TERVUOLA_CREWS == 32);
    EXPECT(TERVUOLA_NO_TRACE == 0 && TERVUOLA_WAITING == 1 && TERVUOLA_FINISHED == 2);
    EXPECT(TERVUOLA_REPEATED_LABEL == 24 && strstr(tervuola_text(24), "start label"));
    EXPECT(strcmp(tervuola_text(25), "unknown number") == 0);
    /* a place in a list and a part of one are of the machine's size; the part's pointer, of an empty list too */
    EXPECT(sizeof(tervuola_located) == 2 * sizeof(size_t) && sizeof(tervuola_part) == 2 * sizeof(size_t));
    EXPECT(sizeof located.place == sizeof(size_t) && offsetof(tervuola_located, place) == sizeof(size_t));
    EXPECT(offsetof(tervuola_part, at) == 0 && offsetof(tervuola_part, count) == sizeof(size_t));
    /* the crews' state is 66 words and no more; {0} begins; the total is the last */
    EXPECT(sizeof(tervuola_crews) == 66 * 8 && sizeof crews.words == sizeof crews && sizeof(tervuola_collected) == 16);
    EXPECT(offsetof(tervuola_collected, place) == 4 && offsetof(tervuola_collected, status) == 8 && offsetof(tervuola_collected, cell) == 12);
    for (k = 0; k < 66; k++) EXPECT(crews.words[k] == 0);
    EXPECT(tervuola_turns_worked(&crews) == 0);
    crews.words[65] = UINT64_MAX;
    EXPECT(tervuola_turns_worked(&crews) == UINT64_MAX);
    EXPECT(tervuola_part_of(cells, none) == cells && tervuola_part_of(cells, last) == cells + 1 && tervuola_part_of(NULL, none) == NULL);
    return 0;
}
