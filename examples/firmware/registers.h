/* The registers, bits and FIFO tokens of the FUSB302B that the driver uses, named as in the data sheet. */
#ifndef REGISTERS_H
#define REGISTERS_H

enum fusb302_register {
    SWITCHES1 = 0x03,
    CONTROL0 = 0x06,
    CONTROL3 = 0x09,
    POWER = 0x0B,
    RESET = 0x0C,
    INTERRUPTA = 0x3E,
    INTERRUPTB = 0x3F,
    STATUS0 = 0x40,
    STATUS1 = 0x41,
    INTERRUPT = 0x42,
    FIFOS = 0x43
};

enum switches1 { SPEC_REV_2_0 = 1 << 5, TXCC1 = 1 << 0 };

enum control0 { TX_FLUSH = 1 << 6, HOST_CUR_DEFAULT = 1 << 2, TX_START = 1 << 0 };

enum control3 { N_RETRIES_3 = 3 << 1, AUTO_RETRY = 1 << 0 };

enum power { PWR_ALL = 0x0F };

enum reset { SW_RES = 1 << 0 };

enum interrupta { I_RETRYFAIL = 1 << 4, I_TXSENT = 1 << 2 };

enum tx_token { TX_SOP1 = 0x12, TX_SOP2 = 0x13, TX_PACKSYM = 0x80, TX_JAM_CRC = 0xFF, TX_EOP = 0x14, TX_OFF = 0xFE };

#endif
