/* Writing to the transmit FIFO: port.c does it right, port_cut.c as firmware often does it. Link one of them. */
#ifndef PORT_H
#define PORT_H

#include <stdbool.h>
#include <stddef.h>
#include <stdint.h>

/* Whether all octets went out, as far as the driver knows. */
bool port_write(const uint8_t *octets, size_t n);

#endif
