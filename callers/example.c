/* The grids of a bitmap: the 9 x 9 picture with one mark, and what detect tells of it. */
#include "elmetzhur.h"

#include <stdio.h>

int main(void) {
    static uint8_t pic[81], scratch[81];
    static uint32_t stack[81];
    static size_t counts[ELMETZHUR_COUNTS];
    static int32_t places[ELMETZHUR_PLACES];
    static double floats[ELMETZHUR_FLOATS];
    for (int y = 1; y < 8; y++) {
        for (int x = 1; x < 8; x++) {
            int ring = y == 1 || y == 7 || x == 1 || x == 7;
            int stone = y >= 3 && y <= 5 && x >= 3 && x <= 5;
            pic[9 * y + x] = ring || stone;
        }
    }
    uint8_t status = elmetzhur_detect(pic, 81, 9, 9, stack, 81, scratch, 81, counts, ELMETZHUR_COUNTS, places, ELMETZHUR_PLACES, floats, ELMETZHUR_FLOATS);
    if (status != ELMETZHUR_FOUND) {
        printf("refused %d\n", status);
        return 0;
    }
    printf("capstones %zu\ngrids %zu\n", counts[1005], counts[1006]);
    for (int y = 0; y < 9; y++) {
        for (int x = 0; x < 9; x++) {
            printf(" %d", pic[9 * y + x]);
        }
        printf("\n");
    }
    return 0;
}
