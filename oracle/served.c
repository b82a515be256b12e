// Detect in a process of its own, for a machine whose processor is not the one that `rt lib` builds for: oracle/run has it run by an
// emulator. A picture comes on the standard input: width, height, its length and the room lent (64 bits each), then its bytes. What detect
// tells goes to the standard output: the number, the picture, and the places lent. The stack and the scratch are never cleared.
#include <stdint.h>
#include <stdio.h>
#include <string.h>

enum { MOST = 800 * 800, COUNTS = 1007, PLACES = 279, FLOATS = 248 };

uint8_t elmetzhur_detect(uint8_t *pic, size_t n, size_t width, size_t height, uint32_t *stack, size_t entries, uint8_t *scratch, size_t kept,
                         size_t *counts, size_t room, int32_t *places, size_t numbers, double *floats, size_t coefficients);

static uint8_t pic[MOST], scratch[MOST];
static uint32_t stack[MOST];
static size_t counts[COUNTS];
static int32_t places[PLACES];
static double floats[FLOATS];

int main(void)
{
    uint64_t asked[4];
    memset(stack, 77, sizeof stack);
    memset(scratch, 77, sizeof scratch);
    while (fread(asked, sizeof asked, 1, stdin) == 1) {
        if (asked[2] > MOST || asked[3] > MOST || fread(pic, 1, asked[2], stdin) != asked[2])
            return 1;
        for (int k = 0; k < COUNTS; k++)
            counts[k] = 77;
        for (int k = 0; k < PLACES; k++)
            places[k] = 77;
        for (int k = 0; k < FLOATS; k++)
            floats[k] = 7.7;
        uint8_t number = elmetzhur_detect(pic, asked[2], asked[0], asked[1], stack, asked[3], scratch, asked[3],
                                          counts, COUNTS, places, PLACES, floats, FLOATS);
        fwrite(&number, 1, 1, stdout);
        fwrite(pic, 1, asked[2], stdout);
        fwrite(counts, sizeof counts, 1, stdout);
        fwrite(places, sizeof places, 1, stdout);
        fwrite(floats, sizeof floats, 1, stdout);
        if (fflush(stdout) != 0)
            return 1;
    }
    return 0;
}
