/* Firmware of the small system: it knows the blocks by their headers alone. */
#include <stdint.h>
#include <stdio.h>

#include "board.h"
#include "timer_regs.h"
#include "uart_regs.h"

enum { TIMER = 0x0000, UART = 0x1000 };

#define GET(word, FIELD) (((word) & FIELD##_MASK) >> FIELD##_SHIFT)
#define FIELD_OF(FIELD, value) ((uint32_t)(value) << FIELD##_SHIFT)

/* Sleeps until channel 0 has counted so many ticks of so many clocks. */
static int wait_for_ticks(uint32_t ticks, uint32_t clocks) {
    board_write(TIMER + TIMER_DIVISOR_OFFSET, FIELD_OF(TIMER_DIVISOR_DIV, clocks - 1));
    board_write(TIMER + TIMER_CHANNEL_COMPARE_OFFSET(0), ticks);
    board_write(TIMER + TIMER_CHANNEL_COUNT_OFFSET(0), 0);
    board_write(TIMER + TIMER_IER_OFFSET, TIMER_IER_MATCH0_MASK);
    board_write(TIMER + TIMER_CTRL_OFFSET, TIMER_CTRL_RUN_MASK);
    const long slept = board_sleep();
    const uint32_t cause = board_read(TIMER + TIMER_ISR_OFFSET);
    board_write(TIMER + TIMER_CTRL_OFFSET, 0);
    board_write(TIMER + TIMER_ISR_OFFSET, TIMER_ISR_MATCH0_MASK);
    printf("timer: interrupt %s, %ld clocks asleep\n", GET(cause, TIMER_ISR_MATCH0) ? "of channel 0" : "without a cause", slept);
    return !GET(cause, TIMER_ISR_MATCH0) || board_interrupts();
}

static void send(const char *text) {
    for (; *text; text++) board_write(UART + UART_TX_OFFSET, FIELD_OF(UART_TX_DATA, (unsigned char)*text));
}

/* Takes as many bytes as the port says that it has received. */
static int receive(char *text, int room) {
    int count = 0;
    while (count < room && GET(board_read(UART + UART_STATUS_OFFSET), UART_STATUS_LEVEL)) {
        text[count++] = (char)GET(board_read(UART + UART_RX_OFFSET), UART_RX_DATA);
    }
    return count;
}

static int talk_to_itself(void) {
    char text[17];
    const uint32_t received = 1, all_sent = 4;
    for (uint32_t direction = 0; direction < UART_BAUD_COUNT; direction++) board_write(UART + UART_BAUD_OFFSET(direction), FIELD_OF(UART_BAUD_DIV, 16));
    board_write(UART + UART_CTRL_OFFSET, UART_CTRL_LOOPBACK_MASK);
    board_write(UART + UART_ISR_OFFSET, UART_ISR_EV_MASK);
    send("by the header");
    board_write(UART + UART_IER_OFFSET, FIELD_OF(UART_IER_EN, all_sent));
    const long slept = board_sleep();
    const uint32_t events = GET(board_read(UART + UART_ISR_OFFSET), UART_ISR_EV);
    board_write(UART + UART_IER_OFFSET, 0);
    text[receive(text, 16)] = 0;
    printf("uart: \"%s\" after %ld clocks, %lu errors\n", text, slept, (unsigned long)GET(board_read(UART + UART_STATS_OFFSET), UART_STATS_ERRORS));
    return !(events & received) || board_interrupts();
}

int firmware(void) {
    int wrong = 0;
    wrong |= board_read(UART + UART_BAUD_OFFSET(0)) != UART_BAUD_RESVAL;
    wrong |= wait_for_ticks(10, 4);
    wrong |= talk_to_itself();
    board_read(UART + UART_RX_OFFSET + UART_RX_BYTES);
    printf("bus: %d error, where no word stands\n", board_errors());
    return wrong || board_errors() != 1;
}
