#include "port.h"

#include "board.h"
#include "registers.h"

/* An I2C layer may take fewer octets than it is given. The port takes a message in pieces. */
bool port_write(const uint8_t *octets, size_t n)
{
    while (n > 0) {
        size_t taken = i2c_write(FIFOS, octets, n);
        if (taken == 0)
            return false;
        octets += taken;
        n -= taken;
    }
    return true;
}
