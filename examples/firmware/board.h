/* What the board gives to the driver. On a desk main.c gives it, with the model in the chip's place. */
#ifndef BOARD_H
#define BOARD_H

#include <stdbool.h>
#include <stddef.h>
#include <stdint.h>

/* Octets to the chip, from a register on. Gives back how many went out: no more than the layer holds, fewer
 * if the chip refused one. */
size_t i2c_write(uint8_t address, const uint8_t *octets, size_t n);

/* Octets from the chip, from a register on. Gives back how many came. */
size_t i2c_read(uint8_t address, uint8_t *octets, size_t n);

/* The pin INT_N: false is low, an interrupt waits. */
bool int_n(void);

void wait_us(uint32_t microseconds);

#endif
