/* What the programs need of the board. On a board of your own these write to its serial port, and wait or reset at the end. */
#ifndef BOARD_H
#define BOARD_H

#include <stdint.h>

void board_write(const char *bytes, uint32_t count);

/* Ends with what main returned: 0 where all is right. */
void board_end(int status);

#endif
