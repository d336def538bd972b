/* What the program asks of the board. */
#ifndef BOARD_H
#define BOARD_H

#include <stdint.h>

/* Shows a text. */
void put(const char *text);

/* Bytes of flash and of RAM without the stack; and how deep the stack was, from the board's start until now. */
struct bytes { uint32_t flash, ram, stack; };
struct bytes used(void);

#endif
