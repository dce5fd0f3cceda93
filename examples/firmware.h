#pragma once
#include <stddef.h>
#include <stdint.h>

struct ring {
    uint8_t head, tail, bytes[16];
};

struct reader {
    uint8_t state, length, count, sum, body[16];
};

struct button {
    uint8_t history, pressed;
};

void reset(void);
void uart_start(uint32_t baud);
void uart_put(uint8_t byte);
uint8_t uart_errors(void);
uint8_t uart_poll(struct ring *ring);
int16_t uart_get(struct ring *ring, uint16_t patience);
void uart_send(const uint8_t *bytes, uint8_t length);
int8_t frame_take(struct reader *reader, uint8_t byte);
int8_t button_take(struct button *button, uint8_t level);
uint16_t random_next(uint16_t x);
int16_t q15_add(int16_t a, int16_t b);
int16_t q15_mul(int16_t a, int16_t b);
int16_t q15_abs(int16_t x);
int8_t mean(const uint8_t *samples, uint8_t count);
int32_t q16_between(int32_t from, int32_t to, uint8_t part);
uint16_t square_root(uint32_t x);
uint16_t divide(uint16_t x, uint8_t by);
void *memset(void *to, int byte, size_t count);
int8_t hex_digit(char c);
uint8_t hex_read(const char *text, uint32_t *value);
void hex_write(char *text, uint16_t value);
int8_t text_compare(const char *a, const char *b);
uint16_t fletcher16(const uint8_t *bytes, uint16_t length);
uint16_t crc16(uint16_t crc, uint8_t byte);
int16_t big_endian16(const uint8_t *bytes);
uint32_t big_endian32(const uint8_t *bytes);
