#include "frames.h"

#define MANAGE_PORTS 15
#define ITEMS 760

struct octets *longest_application(void)
{
    octets_of(16);
    octet(RDS_APP - 17);
    return octets_of(RDS_APP - 17);
}

struct octets *shortest_application(void)
{
    octets_of(16);
    return octet(0);
}

/* A U frame's first two octets. */
static void begins(uint8_t first, uint8_t m)
{
    nothing();
    octet(first);
    octet(m);
}

struct octets *managed(uint8_t first, uint8_t action, uint8_t ports)
{
    begins(first, RDS_MANAGE_PORT);
    octet(action);
    octet(ports);
    return longest_application();
}

struct octets *notify(void)
{
    begins(U_0, RDS_MANAGE_PORT);
    octet(MANAGE_PORTS << 4 | 4);
    for (unsigned k = 0; k < MANAGE_PORTS; k++) {
        octet((uint8_t)k);
        shortest_application();
    }
    return octet(0), octet(0);
}

struct octets *parameters(void)
{
    begins(U_0, RDS_SET_PARAMETERS);
    for (unsigned k = 0; k < ITEMS; k++) {
        octet(1);
        octet(0);
    }
    return octets_of(0);
}

struct octets *answered(uint8_t first, uint8_t action, uint8_t status)
{
    begins(first, RDS_MANAGE_PORT);
    octet(action);
    return octet(status);
}

struct octets *hostile_frame(uint64_t k)
{
    static const uint8_t second[] = { RDS_MANAGE_PORT, RDS_MANAGE_PORT, RDS_SET_PARAMETERS, RDS_SET_ACK_MODE };
    struct octets *frame = hostile(k);
    if (k % 8 == 0)
        return frame;
    frame->at[0] = k % 3 == 0 ? U_1 : U_0;
    frame->at[1] = second[k % 4];
    frame->at[2] = (uint8_t)(frame->at[2] << 4 | k % 8);
    return frame;
}
