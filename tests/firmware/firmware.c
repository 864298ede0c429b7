/* Firmware for examples/uart.rdl: what it reads and writes by the macros of uart.h, held against the module's pins. */
#include <stdint.h>
#include <stdio.h>

#include "examples/uart.h"

uint32_t bus_read(uint32_t offset, int *error);
void bus_write(uint32_t offset, uint32_t data);
uint32_t pin(const char *name);
int firmware(void);

#define GET(word, FIELD) (((word) & FIELD##_MASK) >> FIELD##_SHIFT)
#define PUT(word, FIELD, value) (((word) & ~FIELD##_MASK) | ((uint32_t)(value) << FIELD##_SHIFT))

static int wrong;

static void want(const char *what, uint32_t is, uint32_t wanted) {
    if (is != wanted) {
        wrong++;
        printf("%s: 0x%lx, not 0x%lx\n", what, (unsigned long)is, (unsigned long)wanted);
    }
}

int firmware(void) {
    int error;
    uint32_t index, ctrl;
    want("ctrl under reset", bus_read(UART_CTRL_OFFSET, &error), UART_CTRL_RESVAL);
    want("its error", (uint32_t)error, 0);
    for (index = 0; index < UART_BAUD_COUNT; index++) want("baud under reset", bus_read(UART_BAUD_OFFSET(index), &error), UART_BAUD_RESVAL);

    /* Each write moves one field and leaves the others. */
    bus_write(UART_CTRL_OFFSET, PUT(bus_read(UART_CTRL_OFFSET, &error), UART_CTRL_PARITY, UART_PARITY_T_ODD_VALUE));
    want("parity", pin("parity"), 2);
    want("stop2 beside it", pin("stop2"), 0);
    want("loopback beside it", pin("loopback"), 0);
    bus_write(UART_CTRL_OFFSET, PUT(bus_read(UART_CTRL_OFFSET, &error), UART_CTRL_LOOPBACK, 1));
    want("loopback", pin("loopback"), 1);
    want("parity beside it", pin("parity"), 2);
    ctrl = bus_read(UART_CTRL_OFFSET, &error);
    want("parity as it is read", GET(ctrl, UART_CTRL_PARITY), UART_PARITY_T_ODD_VALUE);
    want("loopback as it is read", GET(ctrl, UART_CTRL_LOOPBACK), 1);

    /* The second element of an array. */
    bus_write(UART_BAUD_OFFSET(1), PUT(0, UART_BAUD_DIV, 0x1234));
    want("the first element", pin("div0"), UART_BAUD_DIV_RESET);
    want("the second", pin("div1"), 0x1234);

    /* Two registers at one address. */
    bus_write(UART_TX_OFFSET, PUT(0, UART_TX_DATA, 0x5a));
    want("what is sent", pin("tx"), 0x5a);
    want("what is received", GET(bus_read(UART_RX_OFFSET, &error), UART_RX_DATA), pin("rx"));

    /* Behind the last word no word stands. */
    bus_read(UART_RX_OFFSET + UART_RX_BYTES, &error);
    want("an error behind the last word", (uint32_t)error, 1);
    return wrong;
}
