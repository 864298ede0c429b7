/* What the firmware sees of the board: the bus, its errors, and the interrupt line. */
#ifndef BOARD_H
#define BOARD_H

#include <stdint.h>

#ifdef __cplusplus
extern "C" {
#endif

uint32_t board_read(uint32_t address);
void board_write(uint32_t address, uint32_t data);
int board_errors(void);      /* accesses that ended with an error so far */
int board_interrupts(void);  /* whether the line is high */
long board_sleep(void);      /* waits for the line, and gives the clocks; 100,000 are the most */
int firmware(void);

#ifdef __cplusplus
}
#endif
#endif
