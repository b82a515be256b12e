/* Elmetzhur, for callers in C: the detection half of a QR reader, every function of which is proved to meet its contract.
 *
 * A call returns 0 where it found what it was asked for, 255 where there is nothing to be found, or the number of a refusal (1 to 16, below).
 * A refused call leaves all that it was lent as it was, except where a comment says otherwise. No call asks for anything but that each
 * pointer and the count after it describe places that the caller may read (const) or write. No two of them may overlap.
 * Nothing is allocated: every buffer is the caller's, and no finding depends on what a buffer that is not read held before.
 *
 * A picture is a byte for each pixel, line by line, its sides from 1 to 800. A bitmap has 0 for white and 1 for black; a finder paints the
 * black pixels with 2 to 255. The stack has an entry for each pixel, and so has the scratch.
 *
 * A region table is handed over as 1005 numbers: from counts[4 k] on the number that is the k-th newest, and the entry of number k: column,
 * line, pixels; counts[1004] is the number of entries. All zeros is the empty table. */
#ifndef ELMETZHUR_H
#define ELMETZHUR_H

#include <stddef.h>
#include <stdint.h>

enum {
    ELMETZHUR_FOUND = 0,
    ELMETZHUR_SIZE = 1,      /* a side is 0 or above 800 */
    ELMETZHUR_LENGTH = 2,    /* the picture's length is not width x height */
    ELMETZHUR_ROOM = 3,      /* a lent buffer is too short */
    ELMETZHUR_BYTE = 4,      /* a bitmap holds a byte above 1 */
    ELMETZHUR_OUTSIDE = 5,   /* the seed is outside the picture */
    ELMETZHUR_WHITE = 6,     /* the seed is white */
    ELMETZHUR_SAME = 7,      /* the seed has the target colour */
    ELMETZHUR_TARGET = 8,    /* the target is not 2, 3 or 4 */
    ELMETZHUR_TABLE = 9,     /* the region table is unsound */
    ELMETZHUR_NUMBER = 10,   /* a pixel shows a number that the table does not hold */
    ELMETZHUR_STONES = 11,   /* more than 64 stones */
    ELMETZHUR_FAR = 12,      /* a point lies further out than 10,000, or a corner outside the picture */
    ELMETZHUR_UNPLACED = 13, /* a point lies nowhere */
    ELMETZHUR_TIMING = 14,   /* no timing pattern */
    ELMETZHUR_TURNED = 15,   /* a turned stone is flat */
    ELMETZHUR_INDEX = 16,    /* a cell outside the grid, a stone outside the list */
    ELMETZHUR_DARK = 254,    /* elmetzhur_read_cell alone */
    ELMETZHUR_LIGHT = 255,   /* elmetzhur_read_cell alone */
    ELMETZHUR_NOTHING = 255  /* flat, parallel, no grid */
};

/* How many places the buffers of elmetzhur_detect have at least. */
enum { ELMETZHUR_COUNTS = 1007, ELMETZHUR_PLACES = 279, ELMETZHUR_FLOATS = 248 };

#ifdef __cplusplus
extern "C" {
#endif

/* libexports.a */

/* Whether a picture is a bitmap: 0, or 1, 2, 4. */
uint8_t elmetzhur_accept(const uint8_t *pic, size_t n, size_t width, size_t height);

/* Makes a grey picture, 0 for black, a bitmap, in place: 0, or 1, 2. */
uint8_t elmetzhur_prepare(uint8_t *pic, size_t n, size_t width, size_t height);

/* Paints the piece of (x, y) with the target and tells three counts: rows met, pixels painted, stack entries pushed. 1, 2, 3, 5, 8, 6, 7. */
uint8_t elmetzhur_claim(uint8_t *pic, size_t n, size_t width, size_t height, uint32_t *stack, size_t entries, size_t x, size_t y, uint8_t target,
                        size_t *counts, size_t room);

/* The same, and lists the rows in the order in which a fill meets them: left, right and line of each. rows has three places for each pixel. */
uint8_t elmetzhur_rows(uint8_t *pic, size_t n, size_t width, size_t height, uint32_t *stack, size_t entries, size_t x, size_t y, uint8_t target,
                       size_t *rows, size_t places, size_t *count, size_t room);

/* The whole number nearest to x, halves away from zero: 0, or 13. */
uint8_t elmetzhur_round(double x, int32_t *out, size_t room);

/* The perspective that takes the corners of a w by h rectangle to four points, x0 y0 .. x3 y3: eight coefficients; 255 where it is flat. */
uint8_t elmetzhur_create(const int32_t *corners, size_t n, double w, double h, double *out, size_t room);

/* Where the grid's point (u, v) lies, x and y: 0, or 13. */
uint8_t elmetzhur_map(const double *c, size_t n, double u, double v, int32_t *out, size_t room);

/* The grid's point, u and v, that lies at (x, y). */
uint8_t elmetzhur_unmap(const double *c, size_t n, int32_t x, int32_t y, double *out, size_t room);

/* Where the line through the first two of four points crosses the line through the others: 0, 255 where they don't, or 12. */
uint8_t elmetzhur_line_intersect(const int32_t *points, size_t n, int32_t *out, size_t room);

/* Every point of the scan from one end to the other, x before y: 0, or 12. */
uint8_t elmetzhur_scan(int32_t x0, int32_t y0, int32_t x1, int32_t y1, int32_t *out, size_t room);

/* libexports_detect.a */

/* Finds the stones and the grids of a bitmap, and leaves the paint: 0, or 1, 2, 3, 4, and then as its stages meet them.
 * Grid k stands as nine numbers from places[9 k] on, its size and its four bounds (x and y each), and as eight coefficients from floats[8 k]
 * on, blank from the number of grids on. counts holds the region table that is left; counts[1005] is the number of stones, counts[1006]
 * of grids. "No grids" says that none was located in this picture, and nothing else. */
uint8_t elmetzhur_detect(uint8_t *pic, size_t n, size_t width, size_t height, uint32_t *stack, size_t entries, uint8_t *scratch, size_t kept,
                         size_t *counts, size_t room, int32_t *places, size_t numbers, double *floats, size_t coefficients);

/* libexports_cells.a */

/* The cell in column x of line y of a grid: ELMETZHUR_DARK, ELMETZHUR_LIGHT, or 1, 2, 16, 13. */
uint8_t elmetzhur_read_cell(const uint8_t *pic, size_t n, size_t width, size_t height, uint8_t size, const double *c, size_t coefficients,
                            uint8_t y, uint8_t x);

/* libexports_marks.a */

/* The stones alone, from the empty table: 0, or 1, 2, 3, 4, 11, 12, 13. The picture keeps the paint, also after 11, 12 and 13.
 * Stone k stands as five points from places[10 k] on, its corners and its centre, and as eight coefficients from floats[8 k] on; counts holds
 * the table, counts[1005] the number of stones. At least 640, 512 and 1006 places. */
uint8_t elmetzhur_capstones(uint8_t *pic, size_t n, size_t width, size_t height, uint32_t *stack, size_t entries, int32_t *places,
                            size_t numbers, double *floats, size_t coefficients, size_t *counts, size_t room);

/* libexports_ranking.a */

/* Ranks the neighbours of stone idx, of n stones: 0, or 11, 16. Always 64 stones are lent, a centre as two numbers and a perspective as
 * eight. The pairs stand from pairs[0] on, two indices each, the likeliest first; pairs[1984] is their number. */
uint8_t elmetzhur_rank(const int32_t *centers, size_t numbers, const double *floats, size_t coefficients, size_t n, size_t idx, size_t *pairs,
                       size_t room);

/* libexports_grids.a */

/* Fits a group of three stones, each as five points: 0 with a grid, 255 with none, or 1, 2, 3, 9, 12, and then as its steps meet them. The
 * table goes in and comes back in counts; counts[1005] holds the grid's size afterwards, floats its eight coefficients. */
uint8_t elmetzhur_fit(uint8_t *pic, size_t n, size_t width, size_t height, uint32_t *stack, size_t entries, uint8_t *scratch, size_t kept,
                      size_t *counts, size_t room, const int32_t *places, size_t numbers, double *floats, size_t coefficients);

/* libexports_regions.a */

/* Looks the piece of (x, y) up: 0, or 1, 2, 3, 5, 9, 6, 10. The table goes in and comes back in counts; counts[1005] holds the piece's colour
 * afterwards, 2, 3 or 4 for a claimed one, else its number plus 5, counts[1006] its pixels, 0 for a claimed one. At least 1007 places. */
uint8_t elmetzhur_look_up(uint8_t *pic, size_t n, size_t width, size_t height, uint32_t *stack, size_t entries, size_t x, size_t y,
                          size_t *counts, size_t room);

#ifdef __cplusplus
}
#endif

#endif
