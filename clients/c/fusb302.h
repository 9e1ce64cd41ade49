/*
 * The model of the FUSB302B for firmware in C: C11 and POSIX, with fusb302.c beside it.
 *
 * From the project's folder: cc -Iclients/c reset.c clients/c/fusb302.c (where the processor is not x86-64, open "./bench")
 *
 *     #include <stdio.h>
 *     #include "fusb302.h"
 *     int main(void) {
 *         fusb302 *model;
 *         fusb302_outcome reset;
 *         fusb302_open(&model, "target/bin/bench", 0);
 *         fusb302_write(model, 0x03, 0x21, NULL);
 *         fusb302_write(model, 0x09, 0x46, &reset);
 *         printf("INT_N %d, %zu symbols left\n", reset.int_n, reset.count);
 *         return puts(fusb302_status_text(fusb302_close(model))) < 0; }
 *
 * A call gives a status: whether the model answered at all. What the model answered is in the outcome, a refusal too.
 * After an error the model stays in it: every later call gives it again at once, and so does fusb302_close.
 * Models are independent of each other. One model is for one thread at a time.
 */
#ifndef FUSB302_H
#define FUSB302_H

#include <stddef.h>
#include <stdint.h>

#ifdef __cplusplus
extern "C" {
#endif

typedef struct fusb302 fusb302;

typedef enum {
    FUSB302_OK,
    FUSB302_NOT_STARTED,     /* the bench cannot be started; after fusb302_open, errno says why */
    FUSB302_ENDED,           /* the model ended before it answered */
    FUSB302_OUT_OF_FORM,     /* what came is no answer to what was asked */
    FUSB302_SILENT,          /* no answer came within the time limit */
    FUSB302_TOO_MANY_EVENTS, /* a model takes 9,999,999 events */
    FUSB302_NOT_OPEN         /* the model is NULL */
} fusb302_status;

/* The status in words. */
const char *fusb302_status_text(fusb302_status status);

/* Kinds of packets. Any other number can be asked for, and is refused. */
enum {
    FUSB302_SOP,
    FUSB302_SOP_PRIME,
    FUSB302_SOP_DOUBLE_PRIME,
    FUSB302_SOP_PRIME_DEBUG,
    FUSB302_SOP_DOUBLE_PRIME_DEBUG
};

typedef enum {
    FUSB302_DONE,
    FUSB302_VALUE,  /* an octet was read */
    FUSB302_REFUSED /* and what was refused has changed nothing */
} fusb302_reply;

/* One event sends a frame of at most 73 symbols; an I2C write over 06 and 09 can send a message and a Hard Reset, 73 + 4. */
enum { FUSB302_SYMBOLS = 77 };

/* What came of a call. After an error: what came of the call's octets that were answered before it. */
typedef struct {
    fusb302_reply reply;
    uint8_t value;  /* the octet that was read last, else 0 */
    uint8_t number; /* why it was refused, 1 to 11, else 0 */
    int int_n;      /* the level of INT_N: 0 is low, an interrupt waits */
    size_t taken;   /* how many octets were written or read */
    size_t count;   /* how many symbols left */
    uint8_t symbols[FUSB302_SYMBOLS];
} fusb302_outcome;

/*
 * A model at power-up. `bench` is the path of the bench program, or NULL for the one named bench in PATH. No call takes longer
 * than `limit_ms` milliseconds, or 5,000 if that is 0. After an error *model is NULL, and every call says FUSB302_NOT_OPEN.
 */
fusb302_status fusb302_open(fusb302 **model, const char *bench, uint32_t limit_ms);

/*
 * Ends the model, and gives the error that it was in. A model that does not end within the time limit is ended by force, and
 * FUSB302_SILENT is given.
 */
fusb302_status fusb302_close(fusb302 *model);

/* The events, one each. `outcome` may be NULL. */

fusb302_status fusb302_write(fusb302 *model, uint8_t address, uint8_t value, fusb302_outcome *outcome);

fusb302_status fusb302_read(fusb302 *model, uint8_t address, fusb302_outcome *outcome);

/* Microseconds pass, 0 to 1,000; more are refused with 10. */
fusb302_status fusb302_pass_time(fusb302 *model, uint32_t microseconds, fusb302_outcome *outcome);

/* A packet is heard: the `n` octets of a message, 2 to 30, and its CRC behind them. Other lengths are refused with 9. */
fusb302_status fusb302_hear_packet(fusb302 *model, uint32_t kind, const uint8_t *message, size_t n, fusb302_outcome *outcome);

/* A packet is heard whose last four octets are its CRC, right or wrong: 6 to 34 octets. Other lengths are refused with 9. */
fusb302_status fusb302_hear_packet_with_crc(fusb302 *model, uint32_t kind, const uint8_t *octets, size_t n,
                                            fusb302_outcome *outcome);

fusb302_status fusb302_hear_hard_reset(fusb302 *model, fusb302_outcome *outcome);

/* The pins are at these voltages from here on, in millivolts. All are 0 at power-up, and SW_RES keeps them. Never
 * refused. C cuts a larger number to 16 bits before the call sees it. */
fusb302_status fusb302_set_pins(fusb302 *model, uint16_t cc1_mv, uint16_t cc2_mv, uint16_t vbus_mv, fusb302_outcome *outcome);

/*
 * What an I2C driver does: `n` octets to or from an address, one event each. The address goes up by one from octet to octet,
 * and stays when it is 43, the FIFO port. The first refusal ends the call. The outcome is that of the last octet that was
 * asked for, with all that were taken and all symbols that left, in their order. No octets: done, and no event.
 */

fusb302_status fusb302_i2c_write(fusb302 *model, uint8_t address, const uint8_t *octets, size_t n, fusb302_outcome *outcome);

/* Of `octets`, as many as were taken are written. */
fusb302_status fusb302_i2c_read(fusb302 *model, uint8_t address, uint8_t *octets, size_t n, fusb302_outcome *outcome);

/* The level of INT_N after the last event, and 1 at power-up and of no model. */
int fusb302_int_n(const fusb302 *model);

#ifdef __cplusplus
}
#endif

#endif
