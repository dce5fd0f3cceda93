/* State machines: a reader of frames, and a button whose contact bounces. */
#include "firmware.h"

enum { IDLE, LENGTH, BODY, SUM };

/* Takes one byte; answers 0 within a frame, 1 after a good one, and -1 after a bad one. */
int8_t frame_take(struct reader *reader, uint8_t byte)
{
    switch (reader->state) {
    case IDLE:
        if (byte == 0x7e)
            reader->state = LENGTH;
        break;
    case LENGTH:
        reader->length = byte & (sizeof reader->body - 1);
        reader->count = 0;
        reader->sum = byte;
        reader->state = reader->length ? BODY : SUM;
        break;
    case BODY:
        reader->body[reader->count++] = byte;
        reader->sum += byte;
        if (reader->count == reader->length)
            reader->state = SUM;
        break;
    case SUM:
        reader->state = IDLE;
        if ((uint8_t)(reader->sum + byte) != 0)
            return -1;
        return 1;
    }
    return 0;
}

/* Takes a sample of the button every few milliseconds; answers 1 where it is pressed now, -1 where it is released now. */
int8_t button_take(struct button *button, uint8_t level)
{
    button->history = button->history << 1 | (level & 1);
    if (!button->pressed && (button->history & 0x0f) == 0x0f) {
        button->pressed = 1;
        return 1;
    }
    if (button->pressed && (button->history & 0x0f) == 0) {
        button->pressed = 0;
        return -1;
    }
    return 0;
}

/* The next state of a 16-bit shift register, by the polynomial x^16 + x^14 + x^13 + x^11 + 1. */
uint16_t random_next(uint16_t x)
{
    uint16_t bit = (x ^ x >> 2 ^ x >> 3 ^ x >> 5) & 1;
    return x >> 1 | bit << 15;
}
