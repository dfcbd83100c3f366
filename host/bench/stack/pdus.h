/* The PDUs that the rows are about. */
#ifndef PDUS_H
#define PDUS_H

#include "calls.h"

/* First octets, without CON; GTR and TTR are set where there are such flags and the name says nothing else. */
enum {
    INVOKE = 0x0E, INVOKE_AGAIN = 0x0F, INVOKE_NO_TTR = 0x0C, RESULT = 0x16, RESULT_AGAIN = 0x17, RESULT_NO_TTR = 0x14,
    ACK = 0x18, TID_VERIFY = 0x1C, PROVIDER_ABORT = 0x20, USER_ABORT = 0x21, ABORT_TYPE_2 = 0x22, SEGMENTED = 0x2E, NACK = 0x38
};

#define TO_INITIATOR 0x8000u /* the TID's top bit */

/* One buffer serves all, and every function gives it. These three begin anew: nothing, a header, an Invoke's header. */
struct octets *nothing(void);
struct octets *header(uint8_t first, unsigned tid);
struct octets *invoke(uint8_t first, unsigned tid, uint8_t fourth);

/* The others add to what is there: an octet, or so many. */
struct octets *octet(uint8_t value);
struct octets *octets_of(size_t count);

/* Items after the header: short, empty and unknown; the last of them has CON only where `on` isn't 0. */
struct octets *empty_items(unsigned count, int on);

/* One more item, the last: an Info item in the long form that says this length, and so many octets of it. */
struct octets *info_item(uint8_t says, size_t has);

/* Begins anew: random octets, most of them like a PDU with items, for TID 0 or 1; the same for the same k. */
struct octets *hostile(uint64_t k);

#endif
