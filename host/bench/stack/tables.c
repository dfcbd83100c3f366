#include <string.h>

#include "pdus.h"
#include "rows.h"
#include "tables.h"

#define SPARE 47 /* docs/TABLE.md: a record's last spare octet */

const uint64_t settings[WTP_SETTINGS] = {
    2, 1, INTERVAL, INTERVAL,
    INTERVAL, INTERVAL, INTERVAL, INTERVAL, INTERVAL, INTERVAL, INTERVAL, INTERVAL, INTERVAL,
    INTERVAL, INTERVAL, INTERVAL, INTERVAL, INTERVAL, INTERVAL, INTERVAL, INTERVAL, INTERVAL,
    WTP_MODE_WAITING_LIMIT, INTERVAL,
};

void open_table(size_t records)
{
    lent.records = records;
    lent.answer_len = WTP_ANSWER;
    memset(lent.store, 0, sizeof lent.store);
    fresh(wtp_table_bytes(records), settings, WTP_SETTINGS);
    made();
}

void initiators(size_t records, unsigned live, uint64_t cls, uint64_t user_ack)
{
    open_table(records);
    nothing();
    octets_of(WTP_CELL);
    for (unsigned k = 0; k < live; k++) {
        request(BEFORE, cls, user_ack, octets_of(0));
        made();
    }
}

static void received(const struct octets *pdu)
{
    receive(BEFORE, PEER, pdu);
    made();
}

void verifying(size_t records, uint8_t fourth)
{
    open_table(records);
    invoke(INVOKE, 0, fourth);
    received(octets_of(WTP_CELL));
}

void responders(size_t records, unsigned live, uint8_t fourth)
{
    verifying(records, fourth);
    received(header(TID_VERIFY, 0));
    header(USER_ABORT, 0);
    received(octet(0));
    for (unsigned tid = 1; tid <= live; tid++)
        received(invoke(INVOKE, tid, fourth));
}

void result_shown(size_t records, uint64_t user_ack)
{
    initiators(records, (unsigned)records, 2, user_ack);
    received(header(RESULT, TO_INITIATOR | (unsigned)(records - 1)));
}

void unknown_in_the_last_result(void)
{
    initiators(RECORDS, RECORDS, 2, 0);
    header(RESULT, TO_INITIATOR | (RECORDS - 1));
    received(empty_items(16, 0));
}

void unknown_in_the_last_invoke(uint8_t fourth)
{
    responders(RECORDS, RECORDS - 1, fourth);
    invoke(INVOKE, RECORDS, fourth);
    received(empty_items(16, 0));
}

void damaged(void)
{
    initiators(RECORDS, RECORDS, 2, 0);
    lent.table[wtp_table_bytes(RECORDS - 1) + SPARE] = 1;
}
