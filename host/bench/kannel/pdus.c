/* The octets that both sides are given. */
#include <stdio.h>
#include <stdlib.h>
#include <string.h>

#include "side.h"

static void header(struct octets *pdu, uint8_t first, unsigned tid)
{
    pdu->at[0] = first;
    pdu->at[1] = (uint8_t)(tid >> 8);
    pdu->at[2] = (uint8_t)tid;
    pdu->length = 3;
}

void invoke(struct octets *pdu, unsigned tid)
{
    header(pdu, 0x0E, tid);
    pdu->at[3] = 0x02; /* class 2 */
    for (unsigned k = 0; k < DATA; k++)
        pdu->at[4 + k] = (uint8_t)k;
    pdu->length = 4 + DATA;
}

void tidok(struct octets *pdu, unsigned tid)
{
    header(pdu, 0x1C, tid);
}

void user_abort(struct octets *pdu, unsigned tid)
{
    header(pdu, 0x21, tid);
    pdu->at[pdu->length++] = 0;
}

void last_ack(struct octets *pdu, unsigned tid)
{
    header(pdu, 0x18, tid);
}

void stop_with(const char *side, const char *what)
{
    fprintf(stderr, "%s: %s\n", side, what);
    exit(1);
}
