/* A driver of the nRF51's UART, the one of the micro:bit: bytes and frames go out, bytes come into a ring. */
#include "firmware.h"

#define UART(offset) (*(volatile uint32_t *)(0x40002000 + (offset)))
#define START_RX UART(0x000)
#define START_TX UART(0x008)
#define RX_READY UART(0x108)
#define TX_READY UART(0x11c)
#define ERRORS UART(0x480)
#define ENABLE UART(0x500)
#define TX_PIN UART(0x50c)
#define RX_PIN UART(0x514)
#define RX_BYTE UART(0x518)
#define TX_BYTE UART(0x51c)
#define BAUD UART(0x524)

void uart_start(uint32_t baud)
{
    TX_PIN = 24;
    RX_PIN = 25;
    BAUD = baud;
    ENABLE = 4;
    START_RX = 1;
    START_TX = 1;
}

void uart_put(uint8_t byte)
{
    TX_READY = 0;
    TX_BYTE = byte;
    while ((TX_READY & 1) == 0) {
    }
}

/* The errors that the device tells: overrun, parity, frame, break. It forgets those that are written back. */
uint8_t uart_errors(void)
{
    uint32_t errors = ERRORS & 0xf;
    if (errors != 0)
        ERRORS = errors;
    return errors;
}

/* Takes what has come into the ring; answers the device's errors, with bit 7 where the ring is full. */
uint8_t uart_poll(struct ring *ring)
{
    uint8_t errors = uart_errors();
    while (RX_READY & 1) {
        uint8_t next = (ring->head + 1) & (sizeof ring->bytes - 1);
        if (next == ring->tail)
            return errors | 0x80;
        RX_READY = 0;
        ring->bytes[ring->head] = RX_BYTE;
        ring->head = next;
    }
    return errors;
}

/* The next byte of the ring, or -1 where it stays empty for so many polls. */
int16_t uart_get(struct ring *ring, uint16_t patience)
{
    while (ring->head == ring->tail) {
        if (patience-- == 0)
            return -1;
        uart_poll(ring);
    }
    uint8_t byte = ring->bytes[ring->tail];
    ring->tail = (ring->tail + 1) & (sizeof ring->bytes - 1);
    return byte;
}

/* Sends a frame: 0x7e, the length, the bytes, and what makes the sum of all but the first 0. */
void uart_send(const uint8_t *bytes, uint8_t length)
{
    uint8_t sum = length;
    uart_put(0x7e);
    uart_put(length);
    for (uint8_t i = 0; i < length; i++) {
        uart_put(bytes[i]);
        sum += bytes[i];
    }
    uart_put(-sum);
}
