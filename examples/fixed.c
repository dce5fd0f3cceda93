/* Fixed-point arithmetic: fractions of 15 bits, and words with 16 bits behind the point. */
#include "firmware.h"

static int16_t saturate(int32_t x)
{
    if (x > 0x7fff)
        return 0x7fff;
    if (x < -0x8000)
        return -0x8000;
    return x;
}

int16_t q15_add(int16_t a, int16_t b)
{
    return saturate(a + b);
}

int16_t q15_mul(int16_t a, int16_t b)
{
    return saturate((a * b + 0x4000) >> 15);
}

int16_t q15_abs(int16_t x)
{
    return x < 0 ? saturate(-x) : x;
}

/* The mean of up to 16 samples, which are bytes with an offset of 128. */
int8_t mean(const uint8_t *samples, uint8_t count)
{
    int16_t sum = 0;
    for (uint8_t i = 0; i < count; i++)
        sum += (int8_t)(samples[i] ^ 0x80);
    return sum / 16;
}

/* Where the word stands that is `part` 256ths of the way from one to another. */
int32_t q16_between(int32_t from, int32_t to, uint8_t part)
{
    return from + ((to - from) >> 8) * part;
}

uint16_t square_root(uint32_t x)
{
    uint32_t root = 0;
    for (uint32_t bit = 0x40000000; bit != 0; bit >>= 2) {
        if (x >= root + bit) {
            x -= root + bit;
            root = (root >> 1) + bit;
        } else {
            root >>= 1;
        }
    }
    return root;
}

/* The whole part of a quotient, on a core without a divider. */
uint16_t divide(uint16_t x, uint8_t by)
{
    uint16_t rest = 0;
    for (uint8_t i = 0; i < 16; i++) {
        rest = rest << 1 | x >> 15;
        x <<= 1;
        if (rest >= by) {
            rest -= by;
            x |= 1;
        }
    }
    return x;
}
