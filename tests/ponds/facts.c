/*
 * What is shown of the ponds, cell by cell on a large sheet, with the library's own filled sheet and no other program.
 *   facts FORM SIDE [CLOSED]
 * Forms: noise, rings (ponds on islands of ponds), diagonals (ponds joined at corners alone), bowl (one pond, as deep as can be), voids, lakes (one pond
 * round square gaps).
 * CLOSED is the number of the closed sides, 0 where it is left out.
 */
#include "tervuola.h"
#include <stdio.h>
#include <stdlib.h>
#include <string.h>

static const char *form;

static void holds(int fact, const char *what)
{
    if (!fact) {
        printf("ponds: %s: %s does not hold\n", form, what);
        exit(1);
    }
}

static void *room(size_t n, size_t size)
{
    void *p = malloc(n * size);
    if (!p) {
        printf("ponds: not enough memory\n");
        exit(1);
    }
    memset(p, 0x5A, n * size);
    return p;
}

static uint32_t random_bits(void)
{
    static uint64_t state = 88172645463325252u;
    state ^= state << 13;
    state ^= state >> 7;
    state ^= state << 17;
    return (uint32_t)(state >> 32);
}

static int16_t elevation(uint32_t side, uint32_t r, uint32_t q)
{
    uint32_t down = r < side - 1 - r ? r : side - 1 - r, across = q < side - 1 - q ? q : side - 1 - q, ring = down < across ? down : across;
    if (!strcmp(form, "noise")) return (int16_t)((int)(random_bits() % 65535) - 32767);
    if (!strcmp(form, "rings")) return (int16_t)(ring % 2 ? -2000 : (int)ring - 1000);
    if (!strcmp(form, "diagonals")) return (int16_t)(ring && (r + q) % 3 == 0 ? -(int)(random_bits() % 100) : 7);
    if (!strcmp(form, "bowl")) return (int16_t)(ring ? -32767 : 32767);
    if (!strcmp(form, "lakes")) return (int16_t)(ring == 0 ? 50 : r % 8 > 3 && q % 8 > 3 ? TERVUOLA_VOID : (int)(random_bits() % 50));
    if (!strcmp(form, "voids")) return (int16_t)(random_bits() % 9 ? (int)(random_bits() % 5) - 2 : TERVUOLA_VOID);
    printf("ponds: no form %s\n", form);
    exit(2);
}

int main(int argc, char **argv)
{
    if (argc < 3 || argc > 4) return 2;
    form = argv[1];
    uint32_t side = (uint32_t)atol(argv[2]), closed = argc > 3 ? (uint32_t)atol(argv[3]) : 0;
    size_t n = (size_t)side * side, work_len = tervuola_work_size(side, side);
    int16_t *input = room(n, 2), *filled = room(n, 2);
    uint32_t *ponds = room(n, 4), *work = room(work_len, 4), *queue = room(n, 4);
    for (uint32_t r = 0; r < side; r++)
        for (uint32_t q = 0; q < side; q++) input[(size_t)r * side + q] = elevation(side, r, q);
    holds(tervuola_fill(side, side, closed, input, n, filled, n, work, work_len).number == 0, "the fill accepts");

    /* columns of length 0 give the number, and those that are one place short are left alone */
    tervuola_counted a = tervuola_ponds(side, side, closed, input, n, ponds, n, NULL, 0, NULL, 0, NULL, 0, work, work_len);
    uint32_t count = a.place;
    holds(a.number == (count ? 14 : 0) && a.count == 0 && count <= n, "14 with the number of ponds as place");
    size_t past = 7, len = count + past;
    int16_t *level = room(len, 2), *level0 = room(len, 2);
    uint32_t *cells = room(len, 4), *cells0 = room(len, 4), *ponds0 = room(n, 4);
    uint64_t *volume = room(len, 8), *volume0 = room(len, 8);
    if (count) {
        a = tervuola_ponds(side, side, closed, input, n, ponds, n, level, count - 1, cells, count - 1, volume, count - 1, work, work_len);
        holds(a.number == 14 && a.place == count && a.count == 0, "14 where a place is missing");
        holds(!memcmp(level, level0, 2 * len) && !memcmp(cells, cells0, 4 * len) && !memcmp(volume, volume0, 8 * len) && !memcmp(ponds, ponds0, 4 * n),
              "a no changes no result buffer");
    }
    a = tervuola_ponds(side, side, closed, input, n, ponds, n, level, len, cells, len, volume, len, work, work_len);
    holds(a.number == 0 && a.place == 0 && a.count == count, "the number of ponds is reported");
    holds(!memcmp(level + count, level0, 2 * past) && !memcmp(cells + count, cells0, 4 * past) && !memcmp(volume + count, volume0, 8 * past),
          "places past it are untouched");

    /* cell by cell: own[k - 1] and sum[k - 1] are gathered for pond k */
    uint32_t *own = calloc(count + 1, 4);
    uint8_t *reached = calloc(n, 1);
    uint64_t *sum = calloc(count + 1, 8), differences = 0, volumes = 0, wet = 0, members = 0;
    holds(own && reached && sum, "enough memory");
    uint32_t numbered = 0;
    for (size_t c = 0; c < n; c++) {
        uint32_t k = ponds[c];
        holds((k > 0) == (input[c] != TERVUOLA_VOID && filled[c] > input[c]), "a number just where the filled elevation is above the input");
        differences += (uint64_t)(filled[c] - input[c]);
        if (!k) continue;
        holds(k <= count && k <= numbered + 1, "counted from 1 by each pond's lowest cell number");
        wet++;
        own[k - 1]++;
        sum[k - 1] += (uint64_t)(filled[c] - input[c]);
        holds(filled[c] == level[k - 1], "all cells of a pond share one filled elevation");
        uint32_t r = (uint32_t)(c / side), q = (uint32_t)(c % side);
        for (uint32_t y = r ? r - 1 : r; y <= r + 1 && y < side; y++)
            for (uint32_t x = q ? q - 1 : q; x <= q + 1 && x < side; x++) {
                uint32_t beside = ponds[(size_t)y * side + x];
                holds(!beside || beside == k, "no further such cell beside a pond");
            }
        if (k <= numbered) continue;
        numbered = k;
        /* c is the lowest cell of pond k, and neighbours lead from it to all of them */
        size_t end = 1;
        queue[0] = (uint32_t)c;
        reached[c] = 1;
        for (size_t head = 0; head < end; head++) {
            uint32_t at = queue[head], row = at / side, col = at % side;
            for (uint32_t y = row ? row - 1 : row; y <= row + 1 && y < side; y++)
                for (uint32_t x = col ? col - 1 : col; x <= col + 1 && x < side; x++) {
                    size_t d = (size_t)y * side + x;
                    if (ponds[d] != k || reached[d]) continue;
                    reached[d] = 1;
                    queue[end++] = (uint32_t)d;
                }
        }
        holds(end == cells[k - 1], "joined as neighbours");
    }
    holds(numbered == count, "each number up to the number of ponds is on a cell");
    for (uint32_t k = 0; k < count; k++) {
        holds(own[k] == cells[k], "the cell count");
        holds(sum[k] == volume[k], "the volume");
        members += cells[k];
        volumes += volume[k];
    }
    holds(members == wet, "the cells add up to the wet cells");
    holds(volumes == differences, "the volumes add up to the sum of the differences over the whole sheet");
    if (!strcmp(form, "lakes")) holds(count == 1 && level[0] == 50, "one pond round the gaps");
    if (!strcmp(form, "bowl")) holds(count == 1 && volume[0] == (uint64_t)(side - 2) * (side - 2) * 65534, "the deepest pond");
    printf("ponds: %s at %u square, closed sides %u: %u ponds, %llu of %llu cells wet, volume %llu\n", form, (unsigned)side, (unsigned)closed,
           (unsigned)count, (unsigned long long)wet, (unsigned long long)n, (unsigned long long)volumes);
    return 0;
}
