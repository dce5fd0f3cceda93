/* Reads a line from the UART, runs the other files' functions on what it says, and tells each result. */
#include "firmware.h"

/* Tells a letter and a halfword as a line. */
static void tell(char letter, uint16_t value)
{
    char digits[5];
    hex_write(digits, value);
    uart_put(letter);
    uart_put(' ');
    for (uint8_t i = 0; digits[i] != 0; i++)
        uart_put(digits[i]);
    uart_put('\n');
}

static void tell_fixed(int16_t a, int16_t b)
{
    tell('a', q15_add(a, b));
    tell('b', q15_mul(a, b));
    tell('c', q15_abs(a));
    tell('d', q16_between(a, b, (uint8_t)b));
    tell('e', square_root((uint32_t)a << 16 | (uint16_t)b));
    tell('f', divide(a, (uint8_t)b | 1));
}

static void tell_bytes(const uint8_t *bytes, uint8_t length)
{
    uint16_t crc = 0xffff;
    for (uint8_t i = 0; i < length; i++)
        crc = crc16(crc, bytes[i]);
    tell('g', mean(bytes, length));
    tell('h', crc);
    tell('i', fletcher16(bytes, length));
    tell('j', big_endian16(bytes));
    tell('k', big_endian32(bytes) >> 8);
    tell('l', text_compare((const char *)bytes, (const char *)bytes + 1));
}

/* Runs the state machines on noise and on a frame around the bytes. */
static void tell_states(const uint8_t *bytes, uint8_t length)
{
    struct reader reader = {0};
    struct button button = {0};
    uint16_t noise = 0xace1;
    uint8_t sum = length, events = 0;
    for (uint8_t i = 0; i < 100; i++) {
        noise = random_next(noise);
        events = (events << 1 | events >> 7) + button_take(&button, noise >> 3);
        frame_take(&reader, noise);
    }
    tell('m', noise);
    tell('n', events);
    reader.state = 0;
    frame_take(&reader, 0x7e);
    frame_take(&reader, length);
    for (uint8_t i = 0; i < length; i++) {
        frame_take(&reader, bytes[i]);
        sum += bytes[i];
    }
    tell('o', frame_take(&reader, -sum));
    tell('p', reader.count);
}

void reset(void)
{
    struct ring ring = {0};
    uint8_t line[16] = {0};
    uint8_t length = 0;
    uint32_t value;
    int16_t byte;
    uart_start(0x01d7e000); /* 115200 bits a second */
    uart_put('>');
    for (;;) {
        byte = uart_get(&ring, 0xffff);
        if (byte == '\n' || length == sizeof line - 1)
            break;
        if (byte >= 0)
            line[length++] = byte;
    }
    tell('q', hex_read((const char *)line, &value));
    tell_fixed(value >> 16, value);
    tell_bytes(line, length);
    tell_states(line, length);
    uart_send(line, length);
    *(volatile uint32_t *)0xe000ed0c = 0x05fa0004; /* asks for a reset, at which the emulator ends */
    for (;;) {
    }
}
