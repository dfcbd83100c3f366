#include <string.h>

#include "pdus.h"

#define CON 0x80
#define UNKNOWN_SHORT 0x30 /* identity 6, no data */
#define INFO_LONG 0x0C

static struct octets pdu;

struct octets *nothing(void)
{
    pdu.length = 0;
    return &pdu;
}

struct octets *octet(uint8_t value)
{
    pdu.at[pdu.length++] = value;
    return &pdu;
}

struct octets *octets_of(size_t count)
{
    memset(pdu.at + pdu.length, 0xA5, count);
    pdu.length += count;
    return &pdu;
}

struct octets *header(uint8_t first, unsigned tid)
{
    nothing();
    octet(first);
    octet((uint8_t)(tid >> 8));
    return octet((uint8_t)tid);
}

struct octets *invoke(uint8_t first, unsigned tid, uint8_t fourth)
{
    header(first, tid);
    return octet(fourth);
}

struct octets *empty_items(unsigned count, int on)
{
    pdu.at[0] |= CON;
    for (unsigned k = 1; k <= count; k++)
        octet(k < count || on ? CON | UNKNOWN_SHORT : UNKNOWN_SHORT);
    return &pdu;
}

struct octets *info_item(uint8_t says, size_t has)
{
    pdu.at[0] |= CON;
    octet(INFO_LONG);
    octet(says);
    return octets_of(has);
}

/* Marsaglia's xorshift: the same octets on every machine. */
static uint64_t next(uint64_t *state)
{
    *state ^= *state << 13;
    *state ^= *state >> 7;
    *state ^= *state << 17;
    return *state;
}

struct octets *hostile(uint64_t k)
{
    uint64_t state = k * 0x9E3779B97F4A7C15u + 1;
    uint8_t first = (uint8_t)next(&state);
    header(k % 4 == 0 ? first : first | CON, (unsigned)(next(&state) & (TO_INITIATOR | 1)));
    size_t length = 3 + next(&state) % (k % 2 == 0 ? 30 : WTP_OUTPUT - 2);
    while (pdu.length < length) {
        uint64_t drawn = next(&state);
        octet(drawn % 3 == 0 ? (uint8_t)(drawn >> 8) : (uint8_t)(CON | (drawn >> 8 & 0x7B)));
    }
    return &pdu;
}
