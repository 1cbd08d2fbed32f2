/*
 * tervuola.h - drainage of an elevation sheet: fill, flow directions, flow accumulation counts, basins, ponds, culverts; streams
 * compared, as lists of cells; routes traced for many crews in turn; and small sheets read from text and written as text.
 *
 * Every call is proved against the definitions in crates/grid/specs (docs/DEFINITIONS.md has them in words, docs/PROVED.md says
 * what is proved): for every input and every length of every buffer it gives the number, the place and every element of every
 * result buffer as stated there. The header is C99, and C++.
 *
 * DIRECTION CODING (Jenson and Domingue 1988): north-east is 1, and it goes clockwise.
 *
 *         64 128   1          ESRI: 32  64 128     GRASS r.watershed: 3 2 1
 *         32   .   2                16   .   1                        4 . 8
 *         16   8   4                 8   4   2                        5 6 7
 *
 * It is NOT the ESRI coding, where east is 1: from ours to ESRI's, a code c other than 1 is c / 2, and 1 is 128.
 * COUNTS do not include the cell itself. Nothing is filled at an OUTLET: a data cell on an open side of the border, or beside a void
 * that is outside.
 *
 * VOIDS AND GAPS. A void (-32768) is outside if neighbouring voids, joined at sides and corners, lead from it, itself included, to a
 * void on an open side of the border. Any other void is a GAP, as a lake is that the radar left out: it takes no water, makes no
 * outlet, and no code points at it. Every void, outside or a gap, stays -32768 and has code 0, count 0 and label 0.
 *
 * CLOSED SIDES. A sheet cut from larger country goes on next door, and water at the cut does not leave. The calls that work out
 * outlets (fill, ponds, directions, drain, culverts) take a number from 0 to 15 for the sides that are closed: west 1, east 2,
 * north 4, south 8, added up; with 0 every side is open. A border cell is an outlet only through an open side by a straight
 * step, or beside a void that is outside. An outlet's code is the first of 32, 2, 128, 8, 1, 4, 16, 64 whose step is one of these. One
 * open side is enough for a cell in the sheet's corner, data or void; voids that come to the border at closed sides alone are a gap. A
 * sheet with a data cell that has no chain to an outlet, as one on an island in a gap, or any where all four sides are closed, is
 * refused with 18; a sheet with no data cell is accepted under any sides. All other calls know no sides: those that see codes only
 * end a route at any step off the sheet.
 *
 * THE SHAPE OF CELLS. The calls that work out codes (directions, drain, culverts) take a cell's width, from west to east, and its
 * height, from north to south, whole numbers from 1 to 1,000 each. A drop is divided by the width for east and west, by the height
 * for north and south, and by the square root of the sum of their squares for corners. Only the ratio of the two counts: 30 by 60
 * is 1 by 2, and square cells of any width are 1 by 1 (SquareCells, AnyUnit). Where the largest drops so divided are exactly equal,
 * as 3 to the east, 4 to the north and 5 to the north-east are with cells of 3 by 4, a table decides. All other calls take no shape:
 * fill and ponds do not depend on it, nor does what is worked out of given codes (AnyShape; all three in Shapes.antt).
 *
 * Sheets. Rows and columns are each from 1 to 4,000. The cell in row r and column q, both from 0, has the number
 * r * cols + q, and stands at that place of each sheet. Elevations are signed 16-bit numbers, -32768 the void.
 *
 * Buffers. Each is a pointer and then its number of elements (not bytes). A pointer must be valid for that many elements
 * (a null pointer only with 0 elements), aligned for its type, and no result or work buffer may overlap another buffer of
 * the same call: that is the caller's part, and the only one. The crews' state, a pointer alone and never null, is such a result
 * buffer. Any length and any content is allowed: what does not fit is refused.
 *
 * A refusal (number above 0) leaves every result buffer, and the crews' state, as it was; a number up to 9, and 17 and 20, leaves
 * the work buffer as it was too. Otherwise the work buffer's contents are free afterwards; tervuola_counts says more of its own.
 *
 * The calls allocate nothing, keep no state of their own, are reentrant and thread-safe, and use at most 512 KiB of stack.
 */
#ifndef TERVUOLA_H
#define TERVUOLA_H

#include <stddef.h>
#include <stdint.h>

#define TERVUOLA_VERSION_MAJOR 0
#define TERVUOLA_VERSION_MINOR 12
#define TERVUOLA_VERSION_PATCH 0

/* The void mark, and the eight direction codes. */
#define TERVUOLA_VOID INT16_MIN
#define TERVUOLA_NORTH_EAST 1
#define TERVUOLA_EAST 2
#define TERVUOLA_SOUTH_EAST 4
#define TERVUOLA_SOUTH 8
#define TERVUOLA_SOUTH_WEST 16
#define TERVUOLA_WEST 32
#define TERVUOLA_NORTH_WEST 64
#define TERVUOLA_NORTH 128

/* The closed sides: a sum of these, 0 where every side is open. */
#define TERVUOLA_CLOSED_WEST 1
#define TERVUOLA_CLOSED_EAST 2
#define TERVUOLA_CLOSED_NORTH 4
#define TERVUOLA_CLOSED_SOUTH 8

/* The most rows, and the most columns, of a sheet. */
#define TERVUOLA_MAX_SIDE 4000

/* The largest width, and the largest height, of a cell. */
#define TERVUOLA_MAX_CELL_SIDE 1000

/* The number of crews. */
#define TERVUOLA_CREWS 32

/* The text formats: at most this many bytes, and this many cells. */
#define TERVUOLA_TEXT_BYTES 11529
#define TERVUOLA_TEXT_CELLS 2304

#ifdef __cplusplus
extern "C" {
#endif

/*
 * Why a call refused: the first question at the gate that is answered no. The place is 0 unless it is named here. Each call lists
 * its numbers in the order in which it asks.
 */
enum tervuola_number {
    TERVUOLA_OK = 0,              /* accepted */
    TERVUOLA_TEXT_TOO_LONG = 1,   /* the text has more than 11,529 bytes */
    TERVUOLA_BAD_BYTE = 2,        /* a byte is no hexadecimal digit and no line feed; place: the first such byte, from 0 */
    TERVUOLA_BAD_SHAPE = 3,       /* the text is not a header line and rows lines of 4 digits a column, each ended by a line feed */
    TERVUOLA_TOO_MANY_CELLS = 4,  /* a sheet read from text, or written as text, has more than 2,304 cells */
    TERVUOLA_BAD_ROWS = 5,        /* rows not from 1 to 4,000 */
    TERVUOLA_BAD_COLS = 6,        /* columns not from 1 to 4,000 */
    TERVUOLA_BAD_INPUT = 7,       /* an input sheet has not rows * columns elements, or the two lists of culverts have unlike lengths */
    TERVUOLA_BAD_RESULT = 8,      /* a result sheet has not rows * columns elements (one read from text: has fewer), the columns
                                     have unlike lengths, or a text does not fit its buffer */
    TERVUOLA_SHORT_WORK = 9,      /* the work buffer has fewer than 4 * rows * columns elements */
    TERVUOLA_NO_LEVEL = 10,       /* a data cell has no way down; place: the first such cell */
    TERVUOLA_BAD_CODE = 11,       /* a code is neither 0 nor one of the eight; place: the first such cell */
    TERVUOLA_ENDLESS = 12,        /* a route does not end; place: the first cell with such a route */
    TERVUOLA_BAD_START = 13,      /* a start where the code is 0; place: the first such cell */
    TERVUOLA_SHORT_COLUMNS = 14,  /* the columns do not hold all pairs, or all ponds; place: their number */
    TERVUOLA_BAD_CELL = 15,       /* a culvert's cell is no data cell of the sheet: a void, or off the sheet; place: the culvert's
                                     position in its list, from 0 */
    TERVUOLA_BAD_LEVEL = 16,      /* a culvert's level is -32768, or above its cell's elevation; place: as for 15 */
    TERVUOLA_BAD_SIDES = 17,      /* the closed sides are a number above 15 */
    TERVUOLA_NO_OUTLET = 18,      /* a data cell has no chain of data cells to an outlet; place: the first such cell */
    TERVUOLA_BAD_LIST = 19,       /* a cell of a list lies outside the sheet, or is no neighbour of the one before it; place: the
                                     first such cell's position in its list, from 0 */
    TERVUOLA_BAD_CELL_SHAPE = 20, /* a cell's width or height is not from 1 to 1,000 */
    TERVUOLA_BAD_CREW = 21,       /* the crew is a number above 31 */
    TERVUOLA_NOT_COLLECTED = 22,  /* the crew has a trace, finished or not, that it has not yet collected */
    TERVUOLA_NO_ROUTE = 23,       /* the cell handed in, or the one that an unfinished trace stands on, lies outside the sheet or has
                                     code 0; place of a run: the lowest crew with such a trace */
    TERVUOLA_REPEATED_LABEL = 24  /* a start label above 0 is on more than one cell; place: the second cell that has the lowest such
                                     label */
};

typedef struct {
    uint32_t number; /* enum tervuola_number */
    uint32_t place;
} tervuola_answer;

typedef struct {
    uint32_t number;
    uint32_t place;
    uint32_t count; /* 0 beside a refusal */
} tervuola_counted;

typedef struct {
    uint32_t number;
    uint32_t place;
    uint32_t rows; /* 0 beside a refusal */
    uint32_t cols;
} tervuola_dimensions;

typedef struct {
    uint32_t number;
    size_t place; /* in a list, which may have more than 2^32 places; for 18 the cell */
} tervuola_located;

/* A part of a list: count cells, from the place at. */
typedef struct {
    size_t at;
    size_t count;
} tervuola_part;

/*
 * The traces of 32 crews, numbered 0 to 31. The state is the caller's: {0} begins, with no trace, crew 0 next and a total of 0; a copy
 * goes on by itself, and calls at the same time must not share one. Every content is a state. Words 0 to 31 have for each crew 1 for a
 * trace on its way, 2 for a finished one, and any other number for none (writing 0 there gives up the trace); 32 to 63 the cell that
 * it stands on, in their low 32 bits; 64 the crew whose turn is next, by its remainder by 32; 65 the total.
 */
typedef struct {
    uint64_t words[66];
} tervuola_crews;

/* What a collection says of the crew's trace. */
enum tervuola_status {
    TERVUOLA_NO_TRACE = 0, /* the crew has none */
    TERVUOLA_WAITING = 1,  /* it is on its way */
    TERVUOLA_FINISHED = 2  /* it was finished, and the crew is free again */
};

typedef struct {
    uint32_t number;
    uint32_t place;
    uint32_t status; /* enum tervuola_status; 0 beside a refusal */
    uint32_t cell;   /* the last cell of a finished trace, otherwise 0 */
} tervuola_collected;

/* The number of 32-bit elements that a work buffer needs, for rows and columns in range: a constant where they are constants. */
#define TERVUOLA_WORK_SIZE(rows, cols) ((size_t)4 * (rows) * (cols))

/* The same, checked: 0 where rows or columns are refused anyway. */
static inline size_t tervuola_work_size(uint32_t rows, uint32_t cols)
{
    return rows < 1 || rows > TERVUOLA_MAX_SIDE || cols < 1 || cols > TERVUOLA_MAX_SIDE ? 0 : TERVUOLA_WORK_SIZE(rows, cols);
}

/* A short sentence for a number. */
static inline const char *tervuola_text(uint32_t number)
{
    switch (number) {
    case TERVUOLA_OK: return "accepted";
    case TERVUOLA_TEXT_TOO_LONG: return "the text is longer than 11529 bytes";
    case TERVUOLA_BAD_BYTE: return "a byte is no hexadecimal digit and no line feed";
    case TERVUOLA_BAD_SHAPE: return "the text is not a header and its rows";
    case TERVUOLA_TOO_MANY_CELLS: return "a text may have at most 2304 cells";
    case TERVUOLA_BAD_ROWS: return "the rows are not from 1 to 4000";
    case TERVUOLA_BAD_COLS: return "the columns are not from 1 to 4000";
    case TERVUOLA_BAD_INPUT: return "an input sheet has not rows * columns elements, or the lists of culverts have unlike lengths";
    case TERVUOLA_BAD_RESULT: return "a result buffer has the wrong length";
    case TERVUOLA_SHORT_WORK: return "the work buffer has fewer than 4 * rows * columns elements";
    case TERVUOLA_NO_LEVEL: return "a data cell has no way down: the sheet is not depressionless";
    case TERVUOLA_BAD_CODE: return "a direction code is neither 0 nor one of the eight";
    case TERVUOLA_ENDLESS: return "a route does not end";
    case TERVUOLA_BAD_START: return "a start lies on a cell without a direction code";
    case TERVUOLA_SHORT_COLUMNS: return "the columns do not hold all pairs or ponds";
    case TERVUOLA_BAD_CELL: return "a culvert's cell is no data cell of the sheet";
    case TERVUOLA_BAD_LEVEL: return "a culvert's level is the void mark or above its cell's elevation";
    case TERVUOLA_BAD_SIDES: return "the closed sides are not from 0 to 15";
    case TERVUOLA_NO_OUTLET: return "a data cell has no chain to an outlet: its water cannot leave";
    case TERVUOLA_BAD_LIST: return "a cell of a list lies outside the sheet or is no neighbour of the one before it";
    case TERVUOLA_BAD_CELL_SHAPE: return "the width or height of a cell is not from 1 to 1000";
    case TERVUOLA_BAD_CREW: return "the crew is not from 0 to 31";
    case TERVUOLA_NOT_COLLECTED: return "the crew's trace is not yet collected";
    case TERVUOLA_NO_ROUTE: return "a cell that is to be traced lies outside the sheet or has no direction code";
    case TERVUOLA_REPEATED_LABEL: return "a start label is used on more than one cell";
    default: return "unknown number";
    }
}

/*
 * The depressionless sheet: each data cell raised to the lowest level from which water can leave it.
 * sides: those that are closed, 0 for none. elevations: rows * cols. filled: rows * cols, the result. work: at least
 * 4 * rows * cols.
 * Numbers: 5 6 17 7 8 9 18. Promise: FillPromise (crates/grid/specs/Promises.antt). Linear in the number of cells.
 */
tervuola_answer tervuola_fill(uint32_t rows, uint32_t cols, uint32_t sides,
                              const int16_t *elevations, size_t elevations_len,
                              int16_t *filled, size_t filled_len,
                              uint32_t *work, size_t work_len);

/*
 * Ponds: groups, each as large as can be, of data cells joined at sides and corners whose filled elevation is above the input. Each
 * cell of a pond gets the pond's number, counted from 1 by the ponds' lowest cells, and every other cell 0. The three columns have
 * at place k - 1, for pond k, the filled elevation that all its cells share, the number of its cells, and its volume, the sum of
 * filled minus input. Reports the number of ponds; places past it are untouched.
 * sides: those that are closed, 0 for none. elevations: rows * cols. ponds: rows * cols, the result. level, cells, volume: the
 * columns, of one length; rows * cols always suffice. work: at least 4 * rows * cols. Columns of length 0 (null pointers will do)
 * ask for the number of ponds alone: it is the place of number 14, and number 0 says that there are none.
 * Numbers: 5 6 17 7 8 9 18 14. Promise: PondsPromise. Linear in the number of cells.
 */
tervuola_counted tervuola_ponds(uint32_t rows, uint32_t cols, uint32_t sides,
                                const int16_t *elevations, size_t elevations_len,
                                uint32_t *ponds, size_t ponds_len,
                                int16_t *level, size_t level_len,
                                uint32_t *cells, size_t cells_len,
                                uint64_t *volume, size_t volume_len,
                                uint32_t *work, size_t work_len);

/*
 * The flow direction of each cell of a sheet as it is handed in (it is not filled first): 0 at a void.
 * sides: those that are closed, 0 for none. width, height: a cell's, 1 and 1 for square ones. elevations: rows * cols. codes:
 * rows * cols, the result. work: at least 4 * rows * cols.
 * Numbers: 5 6 17 20 7 8 9 18 10. Promise: DirectionsPromise.
 */
tervuola_answer tervuola_directions(uint32_t rows, uint32_t cols, uint32_t sides, uint32_t width, uint32_t height,
                                    const int16_t *elevations, size_t elevations_len,
                                    uint8_t *codes, size_t codes_len,
                                    uint32_t *work, size_t work_len);

/*
 * Flow accumulation: the number of other cells whose routes pass through the cell, from any sheet of codes.
 * codes: rows * cols. counts: rows * cols, the result. work: at least 4 * rows * cols; its first 2 * rows * cols elements come
 * back as lent, whatever the answer. The call does not touch them either (that is tested, and no part of the promise), so that it
 * brings none of their pages into memory.
 * Numbers: 5 6 7 8 9 11 12. Promise: CountsPromise.
 */
tervuola_answer tervuola_counts(uint32_t rows, uint32_t cols,
                                const uint8_t *codes, size_t codes_len,
                                uint32_t *counts, size_t counts_len,
                                uint32_t *work, size_t work_len);

/*
 * Basins: 1 plus the number of the last cell of the cell's route; 0 where the code is 0. From any sheet of codes.
 * codes: rows * cols. labels: rows * cols, the result. work: at least 4 * rows * cols.
 * Numbers: 5 6 7 8 9 11 12. Promise: LabelsPromise.
 */
tervuola_answer tervuola_labels(uint32_t rows, uint32_t cols,
                                const uint8_t *codes, size_t codes_len,
                                uint32_t *labels, size_t labels_len,
                                uint32_t *work, size_t work_len);

/*
 * The four results in one call: the filled sheet, its directions, and the counts and labels of these.
 * sides: those that are closed, 0 for none. width, height: a cell's, 1 and 1 for square ones. elevations: rows * cols. filled, codes,
 * counts, labels: rows * cols each, the results. work: at least 4 * rows * cols.
 * Numbers: 5 6 17 20 7 8 9 18. Promise: DrainPromise, with demand 3 (Guarantee.antt) for every accepted sheet.
 */
tervuola_answer tervuola_drain(uint32_t rows, uint32_t cols, uint32_t sides, uint32_t width, uint32_t height,
                               const int16_t *elevations, size_t elevations_len,
                               int16_t *filled, size_t filled_len,
                               uint8_t *codes, size_t codes_len,
                               uint32_t *counts, size_t counts_len,
                               uint32_t *labels, size_t labels_len,
                               uint32_t *work, size_t work_len);

/*
 * All culverts of a road: the four results of the sheet opened by a list of cells and levels. In the opened sheet a cell that is named
 * has the lowest of the levels named for it, and every other cell its elevation; the elevations themselves are not changed. The order of
 * the entries makes no difference to the four results, nor does an entry that is repeated. An empty list (null pointers will do) gives
 * what tervuola_drain gives: number, place and results. One culvert is a list of one entry.
 * cells, levels: two lists of one length, with any number of entries, only read; entry k has its cell and its level at place k. The cell
 * must be a data cell, and may be an outlet. The level must not be the void nor above the cell's elevation in the sheet as it is handed
 * in, whatever other entries name the cell; equal to that, it changes nothing. The first bad entry in the list decides: 15 if its cell is
 * no data cell, else 16; its position in the list, from 0, is the place, and no entry is applied. Sides, shape and the other buffers as of
 * tervuola_drain.
 * Numbers: 5 6 17 20 7 8 9 15 16 18; 7 also where the two lists have unlike lengths. Promise: CulvertsPromise, with demand 3 for every
 * accepted list, the opened sheet being the input; what is shown of lists: AnyOrder, SameFour, Reordered, LowestNamed, EmptyList and
 * OneEntry (Entries.antt). Linear in the number of cells and the length of the list.
 */
tervuola_located tervuola_culverts(uint32_t rows, uint32_t cols, uint32_t sides, uint32_t width, uint32_t height,
                                   const int16_t *elevations, size_t elevations_len,
                                   const uint32_t *cells, size_t cells_len,
                                   const int16_t *levels, size_t levels_len,
                                   int16_t *filled, size_t filled_len,
                                   uint8_t *codes, size_t codes_len,
                                   uint32_t *counts, size_t counts_len,
                                   uint32_t *labels, size_t labels_len,
                                   uint32_t *work, size_t work_len);

/*
 * Watersheds from starts: the label of the first start on the cell's route, itself included, or 0.
 * codes, starts (0 for none): rows * cols. watersheds: rows * cols, the result. work: at least 4 * rows * cols.
 * A label above 0 may be on one cell only: nobody could tell apart the watersheds of two gauges with one label. Of the labels on more
 * than one cell the lowest decides, and 24 has as its place the second cell, by rising cell number, with that label.
 * Numbers: 5 6 7 8 9 11 12 13 24. Promise: WatershedsPromise. Linear in the number of cells.
 */
tervuola_answer tervuola_watersheds(uint32_t rows, uint32_t cols,
                                    const uint8_t *codes, size_t codes_len,
                                    const uint32_t *starts, size_t starts_len,
                                    uint32_t *watersheds, size_t watersheds_len,
                                    uint32_t *work, size_t work_len);

/*
 * Table 5: starts where the count, and the rise of the count to the cell flowed into, are both above the threshold;
 * numbered 1, 2, 3 .. by rising cell number, 0 elsewhere, so that no label is on two cells: these starts always pass 24 of
 * tervuola_watersheds. Reports the number of starts.
 * codes, counts (any): rows * cols. starts: rows * cols, the result. work: at least 4 * rows * cols.
 * Numbers: 5 6 7 8 9 11 12. Promise: StartsPromise.
 */
tervuola_counted tervuola_starts(uint32_t rows, uint32_t cols,
                                 const uint8_t *codes, size_t codes_len,
                                 const uint32_t *counts, size_t counts_len,
                                 uint32_t threshold,
                                 uint32_t *starts, size_t starts_len,
                                 uint32_t *work, size_t work_len);

/*
 * Table 6: for each pair of labels that touch (0 is a label), the lowest pour point between them: smaller label, larger
 * label, elevation and cell, in rising order of the two labels. Reports the number of pairs; places past it are untouched.
 * elevations, labels: rows * cols. The four columns: one length. No work buffer. To learn the length that is needed call with four
 * columns of length 0 (null pointers will do): number 14's place is the number of pairs; number 0 says that there are none.
 * Cost for p pairs: one scan of the sheet below 16,384 pairs, else about p / 8,192 + 2 scans; and moves within a sorted batch of
 * 16,384 pairs, at worst (labels that fall along the sheet) some p * p / 2 of them. 10,000 pairs at 4,000 square: seconds.
 * Numbers: 5 6 7 8 14. Promise: PourPointsPromise.
 */
tervuola_counted tervuola_pour_points(uint32_t rows, uint32_t cols,
                                      const int16_t *elevations, size_t elevations_len,
                                      const uint32_t *labels, size_t labels_len,
                                      uint32_t *smaller, size_t smaller_len,
                                      uint32_t *larger, size_t larger_len,
                                      int16_t *elevation, size_t elevation_len,
                                      uint32_t *cell, size_t cell_len);

/*
 * Two streams, each a list of cells in the order in which the water passes them, a crew's walk and a route, say: whether each cell
 * lies on the sheet and is a neighbour of the one before it, at a side or a corner. A cell listed twice in a row is no neighbour of
 * itself; an empty list is accepted.
 * first, second: any number of cells; the two may be one list, or overlap. The first is asked about first, and 19 does not say which
 * list it means: ask about the first alone, with an empty second list (a null pointer will do); if that answers 0 the cell is one of
 * the second.
 * Numbers: 5 6 19. Promise: ListsPromise. Linear in the lengths of the lists.
 */
tervuola_located tervuola_check_lists(uint32_t rows, uint32_t cols,
                                      const uint32_t *first, size_t first_len,
                                      const uint32_t *second, size_t second_len);

/*
 * The longest ending that two such lists share, as a part of the first list: it reaches to that list's end, so at + count is
 * first_len. It is empty, at the first list's end, where a list is empty or the last cells differ, and for rows, columns and lists
 * that tervuola_check_lists refuses: this call gives no number, so ask that one to tell them apart. If both lists are whole routes on
 * one accepted sheet of codes (one that tervuola_counts accepts, or that tervuola_drain has worked out), the part begins at the first
 * cell where they meet, and is empty if they never do.
 * Promise: PartPromise; what is shown of routes: AllRoutesJoin and CodesOfCalls (Endings.antt). Linear in the lengths of the lists.
 */
tervuola_part tervuola_shared_ending(uint32_t rows, uint32_t cols,
                                     const uint32_t *first, size_t first_len,
                                     const uint32_t *second, size_t second_len);

/* The part itself, in the first list's own memory: part.count cells. The list must be the one that the part was worked out for. */
static inline const uint32_t *tervuola_part_of(const uint32_t *first, tervuola_part part)
{
    return part.at == 0 ? first : first + part.at; /* a null pointer is not added to */
}

/*
 * A crew hands in a cell, to collect later the outlet that it drains to: its trace stands on the cell and is on its way.
 * codes: rows * cols. crew: 0 to 31, one without a trace. cell: one with a code above 0. crews: the state. work: at least
 * 4 * rows * cols.
 * Numbers: 5 6 7 9 11 12 21 22 23. Promise: HandInPromise. Linear in the number of cells.
 */
tervuola_answer tervuola_hand_in(uint32_t rows, uint32_t cols,
                                 const uint8_t *codes, size_t codes_len,
                                 uint32_t crew, uint32_t cell,
                                 tervuola_crews *crews,
                                 uint32_t *work, size_t work_len);

/*
 * Turns, which go round the crews by number and carry on where the last run stopped. A turn moves that crew's trace one cell down, or
 * finishes it at its last cell; with no trace, or a finished one, it does nothing. The total grows by one for each turn that moves or
 * finishes a trace, and stays at 2^64 - 1 once there. A trace whose route has r cells is finished within 32 * r turns of being handed
 * in (a refused run takes none), if every hand-in and run since has lent the same sheet of codes; and if the state began with no trace
 * handed in, no run on that sheet gets 23. Another sheet may be lent: the traces go on from where they stand, and a run gets 23, and
 * takes no turn, where one that is not finished stands off that sheet or on a cell with code 0.
 * codes: rows * cols. turns: 0 to 65,535, of 16 bits: C cuts a larger number, and a route of more than 2,047 cells may need more than one
 * run. crews: the state. work: at least 4 * rows * cols.
 * Numbers: 5 6 7 9 11 12 23, also with 0 turns. Promise: RunPromise; what is shown of lists of calls: Operations.antt. 11 and 12 are
 * linear in the number of cells, and a turn takes constant time: a few long runs cost less than many short ones.
 */
tervuola_answer tervuola_run(uint32_t rows, uint32_t cols,
                             const uint8_t *codes, size_t codes_len,
                             uint16_t turns,
                             tervuola_crews *crews,
                             uint32_t *work, size_t work_len);

/*
 * A crew asks for its trace. A finished one is collected: its last cell is given, and the crew is free to hand in the next. For one
 * on its way the status says that it is waiting, for none that there is no trace, both with number 0, and nothing changes.
 * crew: 0 to 31. crews: the state.
 * Numbers: 21. Promise: CollectPromise; where the state began with no trace and one sheet of codes was lent throughout, cell + 1 is the
 * basin label of the cell that was handed in (CollectsOutlet in Operations.antt).
 */
tervuola_collected tervuola_collect(uint32_t crew, tervuola_crews *crews);

/* The total: how many turns have moved or finished a trace since {0}, at most 2^64 - 1. */
static inline uint64_t tervuola_turns_worked(const tervuola_crews *crews)
{
    return crews->words[65];
}

/*
 * Reads a text frame (docs/FORMATS.md) of any bytes into rows, columns and elevations.
 * elevations: at least rows * cols, places past them are untouched; 2,304 always suffice.
 * Numbers: 1 2 3 4 5 6 8 (elevations is too short). Promise: ReadPromise.
 */
tervuola_dimensions tervuola_read(const uint8_t *text, size_t text_len,
                                  int16_t *elevations, size_t elevations_len);

/*
 * Writes an elevation sheet as a text frame: upper-case digits and nothing optional, so that two sheets have equal text exactly
 * when rows, columns and all elevations are equal. Closed sides and the shape of cells are no part of the text. Reports the bytes
 * written, 9 + rows * (4 * cols + 1); bytes past them are untouched, and no zero byte ends them. tervuola_read gives back the sheet
 * from just these bytes (text_len: the count reported); a text that was read, written again, has its letters raised to upper case.
 * elevations: rows * cols exactly, not all of a longer buffer that was read into. text: at least the bytes above, which a refusal
 * does not tell; TERVUOLA_TEXT_BYTES always suffice.
 * Numbers: 4 5 6 7 8 (text is too short). Promise: WritePromise; what is shown of texts: Writing.antt, RoundTrips.antt.
 */
tervuola_counted tervuola_write(uint32_t rows, uint32_t cols,
                                const int16_t *elevations, size_t elevations_len,
                                uint8_t *text, size_t text_len);

#ifdef __cplusplus
}
#endif

#endif
