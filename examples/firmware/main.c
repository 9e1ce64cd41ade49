/*
 * The driver on a desk: the model in the chip's place, and a charger that answers, misses a frame or stays silent.
 *
 *     firmware [BENCH]     the path of the bench, else the one in PATH
 */
#include "board.h"
#include "driver.h"
#include "fusb302.h"

#include <stdio.h>
#include <stdlib.h>

/* As much as a common I2C layer holds. */
enum { I2C_BUFFER = 32 };

enum { EVENT_US_MOST = 1000, ANSWERS_AFTER_US = 200, NEVER = INT32_MAX, ALL = INT32_MAX };

/* A frame: an ordered set, a symbol for each nibble, the CRC's among them, and EOP. */
enum { FRAME_LEAST = 17, SET_SYMBOLS = 4, CRC_OCTETS = 4, EOP_SYMBOLS = 1, MESSAGE_MOST = 34, HEADER_OCTETS = 2 };

enum { GOODCRC = 0x1, SPECIFICATION_2_0 = 1 << 6, MESSAGE_ID_BITS = 7 << 1 };

static fusb302 *model;

/* The clock, and what the charger is about to do. */
static uint32_t now_us;
static unsigned misses;
static uint32_t answers_at = NEVER;
static uint8_t answer_id;

static void must(fusb302_status status)
{
    if (status == FUSB302_OK)
        return;
    fprintf(stderr, "firmware: %s\n", fusb302_status_text(status));
    exit(EXIT_FAILURE);
}

static uint8_t nibble_of(uint8_t symbol)
{
    static const uint8_t symbols[16] = {0x1E, 0x09, 0x14, 0x15, 0x0A, 0x0B, 0x0E, 0x0F,
                                        0x12, 0x13, 0x16, 0x17, 0x1A, 0x1B, 0x1C, 0x1D};
    uint8_t nibble = 0;
    while (nibble < 15 && symbols[nibble] != symbol)
        nibble++;
    return nibble;
}

/* The octets of the message in a frame. Gives back how many. */
static size_t message_of(const fusb302_outcome *outcome, uint8_t message[MESSAGE_MOST])
{
    size_t n = (outcome->count - SET_SYMBOLS - EOP_SYMBOLS) / 2 - CRC_OCTETS;
    for (size_t i = 0; i < n; i++) {
        const uint8_t *pair = outcome->symbols + SET_SYMBOLS + 2 * i;
        message[i] = (uint8_t)(nibble_of(pair[0]) | nibble_of(pair[1]) << 4);
    }
    return n;
}

/* The charger hears what left, and answers in a while unless it misses it. */
static void charger_hears(const fusb302_outcome *outcome)
{
    uint8_t message[MESSAGE_MOST];
    if (outcome->count < FRAME_LEAST) {
        if (outcome->count > 0)
            printf("%5u us: a Hard Reset leaves\n", (unsigned)now_us);
        return;
    }
    size_t n = message_of(outcome, message);
    printf("%5u us: %zu symbols leave, \"%.*s\"\n", (unsigned)now_us, outcome->count, (int)(n - HEADER_OCTETS),
           (const char *)message + HEADER_OCTETS);
    answer_id = message[1] & MESSAGE_ID_BITS;
    answers_at = misses > 0 ? NEVER : now_us + ANSWERS_AFTER_US;
    misses -= misses > 0;
}

static void charger_answers(void)
{
    const uint8_t goodcrc[] = {GOODCRC | SPECIFICATION_2_0, answer_id};
    answers_at = NEVER;
    must(fusb302_hear_packet(model, FUSB302_SOP, goodcrc, sizeof goodcrc, NULL));
    printf("%5u us: the charger answers GoodCRC %d, INT_N is %s\n", (unsigned)now_us, answer_id >> 1, int_n() ? "high" : "low");
}

size_t i2c_write(uint8_t address, const uint8_t *octets, size_t n)
{
    fusb302_outcome outcome;
    must(fusb302_i2c_write(model, address, octets, n < I2C_BUFFER ? n : I2C_BUFFER, &outcome));
    if (outcome.reply == FUSB302_REFUSED)
        printf("%5u us: the write of %02X is refused with %d\n", (unsigned)now_us, address, outcome.number);
    charger_hears(&outcome);
    return outcome.taken;
}

size_t i2c_read(uint8_t address, uint8_t *octets, size_t n)
{
    fusb302_outcome outcome;
    must(fusb302_i2c_read(model, address, octets, n < I2C_BUFFER ? n : I2C_BUFFER, &outcome));
    return outcome.taken;
}

bool int_n(void)
{
    return fusb302_int_n(model) != 0;
}

/* Time passes in events of at most a millisecond, and up to the charger's answer. */
void wait_us(uint32_t microseconds)
{
    uint32_t until = now_us + microseconds;
    while (now_us < until) {
        uint32_t stop = answers_at < until ? answers_at : until;
        uint32_t step = stop - now_us < EVENT_US_MOST ? stop - now_us : EVENT_US_MOST;
        fusb302_outcome outcome;
        must(fusb302_pass_time(model, step, &outcome));
        now_us += step;
        charger_hears(&outcome);
        if (now_us == answers_at)
            charger_answers();
    }
}

static void try_name(const char *what, const char *name, unsigned missed)
{
    static const char *const results[] = {"sent", "no answer", "not taken", "no interrupt"};
    now_us = 0;
    misses = missed;
    answers_at = NEVER;
    printf("%s:\n", what);
    driver_result result = driver_send_name(name);
    printf("%5u us: the driver says: %s\n", (unsigned)now_us, results[result]);
}

int main(int argc, char **argv)
{
    must(fusb302_open(&model, argc > 1 ? argv[1] : NULL, 0));
    if (!driver_init())
        return EXIT_FAILURE;
    try_name("The charger misses the first frame", "l\xC3\xA1!", 1);
    try_name("The charger is silent", "l\xC3\xA1!", ALL);
    try_name("A long name", "paddy tank of class 4b, l\xC3\xA1!", 0);
    must(fusb302_close(model));
    return EXIT_SUCCESS;
}
