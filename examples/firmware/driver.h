/* A driver for the FUSB302B that sends a tank's name over USB PD. It knows the board alone. */
#ifndef DRIVER_H
#define DRIVER_H

#include <stdbool.h>

typedef enum {
    DRIVER_SENT,      /* and acknowledged */
    DRIVER_NO_ANSWER, /* all retries left, and nobody answered */
    DRIVER_NOT_TAKEN, /* no name or too long a one, or the chip did not take what was written */
    DRIVER_NO_INT     /* the chip never said what came of it */
} driver_result;

/* The chip as at power-up, then driver on CC1 and interrupts on. */
bool driver_init(void);

/* Sends a name of 1 to 28 octets of UTF-8, and waits until it is acknowledged or given up. */
driver_result driver_send_name(const char *name);

#endif
