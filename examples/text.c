/* Strings: numbers to and from text, letters, sums over bytes, and the order of bytes. */
#include "firmware.h"

/* What gcc calls where it clears a variable. */
void *memset(void *to, int byte, size_t count)
{
    for (uint8_t *at = to; count != 0; count--)
        *at++ = byte;
    return to;
}

int8_t hex_digit(char c)
{
    if (c >= '0' && c <= '9')
        return c - '0';
    c |= 0x20;
    if (c >= 'a' && c <= 'f')
        return c - 'a' + 10;
    return -1;
}

/* Reads a hexadecimal number; answers how many digits it has. */
uint8_t hex_read(const char *text, uint32_t *value)
{
    uint8_t digits = 0;
    int8_t digit;
    *value = 0;
    while ((digit = hex_digit(text[digits])) >= 0) {
        *value = *value << 4 | digit;
        digits++;
    }
    return digits;
}

void hex_write(char *text, uint16_t value)
{
    for (int8_t i = 3; i >= 0; i--) {
        uint8_t nibble = value & 0xf;
        text[i] = nibble < 10 ? '0' + nibble : 'a' + nibble - 10;
        value >>= 4;
    }
    text[4] = 0;
}

/* Compares two texts, letter case aside. */
int8_t text_compare(const char *a, const char *b)
{
    char x, y;
    do {
        x = *a++;
        y = *b++;
        if (x >= 'A' && x <= 'Z')
            x += 'a' - 'A';
        if (y >= 'A' && y <= 'Z')
            y += 'a' - 'A';
    } while (x == y && x != 0);
    return x < y ? -1 : x > y;
}

uint16_t fletcher16(const uint8_t *bytes, uint16_t length)
{
    uint16_t a = 1, b = 0;
    while (length--) {
        a = (a + *bytes++) & 0xff;
        b = (b + a) & 0xff;
    }
    return b << 8 | a;
}

uint16_t crc16(uint16_t crc, uint8_t byte)
{
    crc = (uint8_t)(crc >> 8) | crc << 8;
    crc ^= byte;
    crc ^= (uint8_t)crc >> 4;
    crc ^= crc << 12;
    crc ^= (crc & 0xff) << 5;
    return crc;
}

int16_t big_endian16(const uint8_t *bytes)
{
    return bytes[0] << 8 | bytes[1];
}

uint32_t big_endian32(const uint8_t *bytes)
{
    return (uint32_t)bytes[0] << 24 | bytes[1] << 16 | bytes[2] << 8 | bytes[3];
}
