/*
 * tile - the drainage of one elevation tile.
 *
 *   tile INPUT OUTPUT [THRESHOLD [WIDTH HEIGHT]]
 *
 * INPUT is an SRTM tile (.hgt, big-endian, 1201 or 3601 square), a raw raster (.bil with its .hdr beside it, 16 bits) or an
 * ESRI ASCII grid (.asc). Writes OUTPUT.filled.bil, .codes.bil, .counts.bil and .labels.bil, each with its .hdr, and OUTPUT.ppm:
 * shaded relief in the colours of the basins, with streams where at least THRESHOLD (default 200) other cells drain through.
 * WIDTH, from west to east, and HEIGHT, from north to south, are those of a cell, whole numbers from 1 to 1,000 in any one unit; without
 * them cells are taken as square, whatever the file says of them. A cell of an SRTM tile at 60 degrees north is 1 by 2.
 * Exit status: 0, 1 where the library refuses the sheet, 2 for a wrong call or a file that cannot be read or written.
 */
#include "tervuola.h"
#include <ctype.h>
#include <errno.h>
#include <math.h>
#include <stdio.h>
#include <stdlib.h>
#include <string.h>

struct tile {
    uint32_t rows, cols;
    int16_t *elevations;
    char georeference[512]; /* lines of the input's header that say where it lies, copied to the outputs */
};

static void die(const char *path, const char *why)
{
    fprintf(stderr, "tile: %s: %s\n", path, why);
    exit(2);
}

/* a whole number from 1 to most, or 0 */
static uint32_t whole(const char *text, unsigned long most)
{
    char *end = NULL;
    unsigned long k = isdigit((unsigned char)*text) ? strtoul(text, &end, 10) : 0;
    return end && !*end && k <= most ? (uint32_t)k : 0;
}

static void *room(size_t n, size_t size)
{
    void *p = calloc(n ? n : 1, size);
    if (!p) die("memory", "not enough for this sheet");
    return p;
}

static FILE *opened(const char *path, const char *mode)
{
    FILE *f = fopen(path, mode);
    if (!f) die(path, strerror(errno));
    return f;
}

static int ends_with(const char *s, const char *tail)
{
    size_t n = strlen(s), k = strlen(tail);
    if (n < k) return 0;
    for (size_t i = 0; i < k; i++)
        if (tolower((unsigned char)s[n - k + i]) != tail[i]) return 0;
    return 1;
}

/* n 16-bit numbers, high byte first or last */
static void read_words(const char *path, int16_t *to, size_t n, int big)
{
    FILE *f = opened(path, "rb");
    unsigned char *raw = room(n, 2);
    if (fread(raw, 2, n, f) != n || fgetc(f) != EOF) die(path, "has not 2 bytes for each cell");
    fclose(f);
    for (size_t i = 0; i < n; i++) {
        unsigned high = raw[2 * i + (big ? 0 : 1)], low = raw[2 * i + (big ? 1 : 0)];
        unsigned word = high << 8 | low;
        to[i] = (int16_t)(word < 32768 ? (int)word : (int)word - 65536);
    }
    free(raw);
}

static void read_hgt(const char *path, struct tile *t)
{
    FILE *f = opened(path, "rb");
    if (fseek(f, 0, SEEK_END)) die(path, strerror(errno));
    long length = ftell(f);
    fclose(f);
    uint32_t side = length == 2L * 1201 * 1201 ? 1201 : length == 2L * 3601 * 3601 ? 3601 : 0;
    if (!side) die(path, "is no SRTM tile of 1201 or 3601 square");
    t->rows = t->cols = side;
    t->elevations = room((size_t)side * side, 2);
    read_words(path, t->elevations, (size_t)side * side, 1);
}

static void keep_line(struct tile *t, const char *line)
{
    size_t n = strlen(t->georeference);
    snprintf(t->georeference + n, sizeof t->georeference - n, "%s", line);
}

static void read_bil(const char *path, struct tile *t)
{
    char header[4096], line[256], key[64], value[64];
    if (strlen(path) >= sizeof header) die(path, "the name is too long");
    strcpy(header, path);
    strcpy(header + strlen(header) - 3, "hdr");
    FILE *f = opened(header, "r");
    long rows = 0, cols = 0, bits = 16, nodata = -32768, bands = 1, skip = 0;
    int big = 0;
    while (fgets(line, sizeof line, f)) {
        if (sscanf(line, "%63s %63s", key, value) != 2) continue;
        for (char *k = key; *k; k++) *k = (char)toupper((unsigned char)*k);
        if (!strcmp(key, "NROWS")) rows = atol(value);
        else if (!strcmp(key, "NCOLS")) cols = atol(value);
        else if (!strcmp(key, "NBITS")) bits = atol(value);
        else if (!strcmp(key, "NBANDS")) bands = atol(value);
        else if (!strcmp(key, "SKIPBYTES")) skip = atol(value);
        else if (!strcmp(key, "NODATA") || !strcmp(key, "NODATA_VALUE")) nodata = atol(value);
        else if (!strcmp(key, "BYTEORDER")) big = toupper((unsigned char)value[0]) == 'M';
        else if (!strcmp(key, "ULXMAP") || !strcmp(key, "ULYMAP") || !strcmp(key, "XDIM") || !strcmp(key, "YDIM")) keep_line(t, line);
    }
    fclose(f);
    if (rows < 1 || rows > TERVUOLA_MAX_SIDE || cols < 1 || cols > TERVUOLA_MAX_SIDE) die(header, "rows and columns are not from 1 to 4000");
    if (bits != 16 || bands != 1 || skip != 0) die(header, "is not one band of 16 bits from byte 0 on");
    t->rows = (uint32_t)rows;
    t->cols = (uint32_t)cols;
    size_t n = (size_t)rows * (size_t)cols;
    t->elevations = room(n, 2);
    read_words(path, t->elevations, n, big);
    for (size_t i = 0; i < n; i++)
        if (t->elevations[i] == nodata) t->elevations[i] = TERVUOLA_VOID;
}

static void read_asc(const char *path, struct tile *t)
{
    FILE *f = opened(path, "r");
    char key[64];
    double value, nodata = -9999, rows = 0, cols = 0;
    long at = ftell(f);
    while (fscanf(f, " %63[A-Za-z_] %lf", key, &value) == 2) {
        for (char *k = key; *k; k++) *k = (char)tolower((unsigned char)*k);
        if (!strcmp(key, "nrows")) rows = value;
        else if (!strcmp(key, "ncols")) cols = value;
        else if (!strcmp(key, "nodata_value")) nodata = value;
        at = ftell(f);
    }
    fseek(f, at, SEEK_SET);
    if (!(rows >= 1 && rows <= TERVUOLA_MAX_SIDE && cols >= 1 && cols <= TERVUOLA_MAX_SIDE)) die(path, "rows and columns are not from 1 to 4000");
    t->rows = (uint32_t)rows;
    t->cols = (uint32_t)cols;
    size_t n = (size_t)t->rows * t->cols;
    t->elevations = room(n, 2);
    for (size_t i = 0; i < n; i++) {
        if (fscanf(f, "%lf", &value) != 1) die(path, "has fewer elevations than rows times columns");
        if (value == nodata) {
            t->elevations[i] = TERVUOLA_VOID;
            continue;
        }
        double whole = floor(value + 0.5);
        if (!(whole >= -32767 && whole <= 32767)) die(path, "an elevation is not from -32767 to 32767");
        t->elevations[i] = (int16_t)whole;
    }
    fclose(f);
}

/* n numbers of so many bytes, low byte first, with a header */
static void write_bil(const char *output, const char *name, const struct tile *t, const void *data, unsigned bytes, const char *kind)
{
    char path[4200];
    size_t n = (size_t)t->rows * t->cols;
    snprintf(path, sizeof path, "%s.%s.bil", output, name);
    FILE *f = opened(path, "wb");
    for (size_t i = 0; i < n; i++) {
        uint32_t v = bytes == 1 ? ((const uint8_t *)data)[i] : bytes == 2 ? (uint16_t)((const int16_t *)data)[i] : ((const uint32_t *)data)[i];
        for (unsigned b = 0; b < bytes; b++) putc((int)(v >> 8 * b & 255), f);
    }
    if (fclose(f)) die(path, strerror(errno));
    snprintf(path, sizeof path, "%s.%s.hdr", output, name);
    f = opened(path, "w");
    fprintf(f, "BYTEORDER I\nLAYOUT BIL\nNROWS %u\nNCOLS %u\nNBANDS 1\nNBITS %u\nPIXELTYPE %s\n%s%s", (unsigned)t->rows, (unsigned)t->cols, 8 * bytes,
            kind, bytes == 2 ? "NODATA -32768\n" : "", t->georeference);
    if (fclose(f)) die(path, strerror(errno));
}

/* light from the north-west on the filled sheet, from 0.25 to 1 */
static double light(const struct tile *t, const int16_t *filled, uint32_t r, uint32_t q, double relief)
{
    uint32_t up = r ? r - 1 : r, down = r + 1 < t->rows ? r + 1 : r, left = q ? q - 1 : q, right = q + 1 < t->cols ? q + 1 : q;
    int16_t a = filled[(size_t)up * t->cols + q], b = filled[(size_t)down * t->cols + q];
    int16_t c = filled[(size_t)r * t->cols + left], d = filled[(size_t)r * t->cols + right];
    if (a == TERVUOLA_VOID || b == TERVUOLA_VOID || c == TERVUOLA_VOID || d == TERVUOLA_VOID) return 0.75;
    double slope = ((double)b - a + (double)d - c) * relief;
    double l = 0.7 + 0.3 * slope / (1 + fabs(slope));
    return l < 0.25 ? 0.25 : l > 1 ? 1 : l;
}

static void write_picture(const char *output, const struct tile *t, const int16_t *filled, const uint32_t *counts, const uint32_t *labels, uint32_t threshold)
{
    char path[4200];
    size_t n = (size_t)t->rows * t->cols;
    int low = 32767, high = -32767;
    for (size_t i = 0; i < n; i++)
        if (filled[i] != TERVUOLA_VOID) {
            if (filled[i] < low) low = filled[i];
            if (filled[i] > high) high = filled[i];
        }
    double relief = high > low ? 60.0 / (high - low) : 1;
    snprintf(path, sizeof path, "%s.ppm", output);
    FILE *f = opened(path, "wb");
    fprintf(f, "P6\n%u %u\n255\n", (unsigned)t->cols, (unsigned)t->rows);
    for (uint32_t r = 0; r < t->rows; r++)
        for (uint32_t q = 0; q < t->cols; q++) {
            size_t i = (size_t)r * t->cols + q;
            if (labels[i] == 0) {
                fwrite("\360\360\360", 1, 3, f);
                continue;
            }
            if (counts[i] >= threshold) {
                fwrite("\020\070\260", 1, 3, f);
                continue;
            }
            uint32_t h = labels[i] * 2654435761u;
            double l = light(t, filled, r, q, relief);
            for (int k = 0; k < 3; k++) putc((int)((140 + (h >> (8 + 8 * k)) % 110) * l), f);
        }
    if (fclose(f)) die(path, strerror(errno));
}

int main(int argc, char **argv)
{
    if (argc < 3 || argc == 5 || argc > 6) {
        fprintf(stderr, "usage: tile INPUT.hgt|.bil|.asc OUTPUT [THRESHOLD [WIDTH HEIGHT]]\n");
        return 2;
    }
    uint32_t threshold = argc > 3 ? whole(argv[3], UINT32_MAX) : 200;
    if (threshold == 0) {
        fprintf(stderr, "tile: the threshold is a number from 1 on\n");
        return 2;
    }
    uint32_t width = argc > 5 ? whole(argv[4], TERVUOLA_MAX_CELL_SIDE) : 1, height = argc > 5 ? whole(argv[5], TERVUOLA_MAX_CELL_SIDE) : 1;
    if (width == 0 || height == 0) {
        fprintf(stderr, "tile: %s\n", tervuola_text(TERVUOLA_BAD_CELL_SHAPE));
        return 2;
    }
    struct tile t = { 0, 0, NULL, "" };
    fprintf(stderr, "tile: reading %s\n", argv[1]);
    if (ends_with(argv[1], ".hgt")) read_hgt(argv[1], &t);
    else if (ends_with(argv[1], ".bil")) read_bil(argv[1], &t);
    else if (ends_with(argv[1], ".asc")) read_asc(argv[1], &t);
    else die(argv[1], "the name does not end in .hgt, .bil or .asc");
    size_t n = (size_t)t.rows * t.cols, work_len = tervuola_work_size(t.rows, t.cols);
    int16_t *filled = room(n, 2);
    uint8_t *codes = room(n, 1);
    uint32_t *counts = room(n, 4), *labels = room(n, 4), *work = room(work_len, 4);
    fprintf(stderr, "tile: working out %u by %u cells\n", (unsigned)t.rows, (unsigned)t.cols);
    tervuola_answer a = tervuola_drain(t.rows, t.cols, 0, width, height, t.elevations, n, filled, n, codes, n, counts, n, labels, n, work,
                                       work_len);
    if (a.number != TERVUOLA_OK) {
        fprintf(stderr, "tile: refused with %u: %s (place %u)\n", (unsigned)a.number, tervuola_text(a.number), (unsigned)a.place);
        return 1;
    }
    fprintf(stderr, "tile: writing %s.*\n", argv[2]);
    write_bil(argv[2], "filled", &t, filled, 2, "SIGNEDINT");
    write_bil(argv[2], "codes", &t, codes, 1, "UNSIGNEDINT");
    write_bil(argv[2], "counts", &t, counts, 4, "UNSIGNEDINT");
    write_bil(argv[2], "labels", &t, labels, 4, "UNSIGNEDINT");
    write_picture(argv[2], &t, filled, counts, labels, threshold);
    fprintf(stderr, "tile: done\n");
    return 0;
}
