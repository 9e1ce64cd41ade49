#include "driver.h"

#include "board.h"
#include "port.h"
#include "registers.h"

#include <string.h>

enum {
    HEADER_OCTETS = 2,
    OBJECT_OCTETS = 4,
    OBJECTS_MOST = 7,
    NAME_MOST = OBJECTS_MOST * OBJECT_OCTETS,
    MESSAGE_MOST = HEADER_OCTETS + NAME_MOST,
    QUEUE_MOST = 5 + MESSAGE_MOST + 3
};

/* The header of a message, USB PD 2.0. */
enum { VENDOR_DEFINED = 0xF, SPECIFICATION_2_0 = 1 << 6, MESSAGE_ID_SHIFT = 9, OBJECTS_SHIFT = 12, MESSAGE_IDS = 8 };

/* The chip tries four times, a millisecond each; what has not come of it by then will not come. */
enum { STEP_US = 100, PATIENCE_US = 6000 };

/* A GoodCRC in the receive FIFO: its token, its header, its CRC. */
enum { GOODCRC_OCTETS = 1 + HEADER_OCTETS + 4 };

static uint8_t message_id;

static bool write_register(uint8_t address, uint8_t value)
{
    return i2c_write(address, &value, 1) == 1;
}

bool driver_init(void)
{
    message_id = 0;
    return write_register(RESET, SW_RES) && write_register(POWER, PWR_ALL) && write_register(SWITCHES1, SPEC_REV_2_0 | TXCC1) &&
           write_register(CONTROL3, N_RETRIES_3 | AUTO_RETRY) && write_register(CONTROL0, HOST_CUR_DEFAULT);
}

/* The message: header, and the name in data objects, filled up with zeros. Gives back its length. */
static size_t put_message(uint8_t *message, const char *name)
{
    size_t length = strlen(name);
    size_t objects = (length + OBJECT_OCTETS - 1) / OBJECT_OCTETS;
    unsigned header = VENDOR_DEFINED | SPECIFICATION_2_0 | (unsigned)message_id << MESSAGE_ID_SHIFT |
                      (unsigned)objects << OBJECTS_SHIFT;
    message[0] = (uint8_t)(header & 0xFF);
    message[1] = (uint8_t)(header >> 8);
    memset(message + HEADER_OCTETS, 0, objects * OBJECT_OCTETS);
    memcpy(message + HEADER_OCTETS, name, length);
    return HEADER_OCTETS + objects * OBJECT_OCTETS;
}

/* What the transmit FIFO is given for the name. Gives back how many octets. */
static size_t put_queue(uint8_t *queue, const char *name)
{
    static const uint8_t sop[] = {TX_SOP1, TX_SOP1, TX_SOP1, TX_SOP2};
    static const uint8_t end[] = {TX_JAM_CRC, TX_EOP, TX_OFF};
    uint8_t *packsym = queue + sizeof sop;
    memcpy(queue, sop, sizeof sop);
    size_t length = put_message(packsym + 1, name);
    *packsym = (uint8_t)(TX_PACKSYM | length);
    memcpy(packsym + 1 + length, end, sizeof end);
    return sizeof sop + 1 + length + sizeof end;
}

/* Reads what the interrupts say, from 3E to 42 in one read, which clears them. */
static uint8_t read_interrupts(void)
{
    uint8_t octets[INTERRUPT - INTERRUPTA + 1] = {0};
    i2c_read(INTERRUPTA, octets, sizeof octets);
    return octets[0];
}

/* Takes the acknowledgement out of the receive FIFO, so that it does not fill up. */
static void drop_goodcrc(void)
{
    uint8_t octets[GOODCRC_OCTETS];
    i2c_read(FIFOS, octets, sizeof octets);
}

static driver_result wait_for_result(void)
{
    for (uint32_t waited = 0; waited <= PATIENCE_US; waited += STEP_US) {
        uint8_t interrupts = int_n() ? 0 : read_interrupts();
        if ((interrupts & I_TXSENT) != 0) {
            drop_goodcrc();
            return DRIVER_SENT;
        }
        if ((interrupts & I_RETRYFAIL) != 0)
            return DRIVER_NO_ANSWER;
        wait_us(STEP_US);
    }
    return DRIVER_NO_INT;
}

driver_result driver_send_name(const char *name)
{
    uint8_t queue[QUEUE_MOST];
    if (*name == '\0' || strlen(name) > NAME_MOST)
        return DRIVER_NOT_TAKEN;
    size_t n = put_queue(queue, name);
    if (!port_write(queue, n) || !write_register(CONTROL0, HOST_CUR_DEFAULT | TX_START)) {
        write_register(CONTROL0, HOST_CUR_DEFAULT | TX_FLUSH);
        return DRIVER_NOT_TAKEN;
    }
    driver_result result = wait_for_result();
    if (result == DRIVER_NO_INT)
        write_register(CONTROL0, HOST_CUR_DEFAULT | TX_FLUSH);
    /* The next message has the next number, whether this one was heard or not. */
    message_id = (uint8_t)((message_id + 1) % MESSAGE_IDS);
    return result;
}
