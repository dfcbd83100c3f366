/* Rows of the received PDU; all items but Info items are unknown. */
#include "pdus.h"
#include "rows.h"
#include "tables.h"

#define LAST (RECORDS - 1)
#define USER_ACK 0x10 /* U/P of an Invoke's fourth octet */
#define TIDNEW 0x20
#define VERSION_1 0x40

/* A row of a PDU that is taken from the peer. */
static void taken(const char *input, const struct octets *pdu)
{
    receive(NOW, PEER, pdu);
    row(input, WTP_OK);
}

static void first_invokes(void)
{
    responders(1, 0, 2);
    invoke(INVOKE, 1, 2);
    taken("Invoke with 100 octets, 1 record", octets_of(100));
    responders(RECORDS, LAST, 2);
    invoke(INVOKE, RECORDS, 2 | USER_ACK);
    empty_items(16, 0);
    taken("Invoke with 16 items and 1,024 octets, the last of 48 records", octets_of(WTP_CELL));
    invoke(INVOKE, RECORDS + 1, 2);
    taken("Invoke at a full table: ignored", octets_of(WTP_CELL));
    invoke(INVOKE, RECORDS + 1, 0);
    taken("Invoke of class 0 at a full table: shown", octets_of(WTP_CELL));
    responders(RECORDS, LAST, 2);
    invoke(INVOKE, 0, 2);
    taken("Invoke to be verified, 1,024 octets, the last of 48 records", octets_of(WTP_CELL));
    responders(RECORDS, LAST, 2);
    invoke(INVOKE, RECORDS, 2 | TIDNEW);
    taken("Invoke with TIDnew, 1,024 octets, the last of 48 records", octets_of(WTP_CELL));
}

static void refused_invokes(void)
{
    responders(RECORDS, LAST, 2);
    invoke(INVOKE, RECORDS, 2);
    taken("Invoke with 17 items (D4): Abort 1", empty_items(17, 0));
    invoke(INVOKE, RECORDS, 2 | VERSION_1);
    taken("Invoke of version 1 with 16 items: Abort 6", empty_items(16, 0));
    invoke(INVOKE_NO_TTR, RECORDS, 2);
    taken("Invoke without TTR, 16 items: Abort 4", empty_items(16, 0));
    invoke(INVOKE, RECORDS, 2);
    taken("Invoke with 1,025 octets: Abort 7", octets_of(WTP_CELL + 1));
    invoke(INVOKE, RECORDS, 3);
    taken("Invoke of class 3 (D5): Abort 1", empty_items(16, 0));
}

static void repeated_invokes(void)
{
    verifying(RECORDS, 2);
    taken("Invoke again while it is verified: TIDve again", invoke(INVOKE_AGAIN, 0, 2));
    taken("TIDok: shown from the store", header(TID_VERIFY, 0));
    timer(NOW + INTERVAL);
    made();
    receive(NOW + INTERVAL, PEER, invoke(INVOKE_AGAIN, 0, 2));
    row("Invoke again while held on: hold-on again", WTP_OK);
    responders(RECORDS, RECORDS, 1);
    nothing();
    answer(NOW, WTP_RESPONDER, RECORDS, octets_of(WTP_EXIT));
    made();
    taken("Invoke again, answered with 128 octets of exit information: Ack again", invoke(INVOKE_AGAIN, RECORDS, 1));
    unknown_in_the_last_invoke(2);
    timer(NOW + INTERVAL);
    for (unsigned k = 0; k < RECORDS; k++)
        made();
    receive(NOW + INTERVAL, PEER, invoke(INVOKE_AGAIN, RECORDS, 2));
    row("Invoke again while held on: hold-on with an Error item again", WTP_OK);
    unknown_in_the_last_invoke(1);
    nothing();
    answer(NOW, WTP_RESPONDER, RECORDS, octets_of(WTP_EXIT));
    made();
    taken("Invoke again, answered with 128 octets of exit information: Ack with an Error item again", invoke(INVOKE_AGAIN, RECORDS, 1));
}

static void results_taken(void)
{
    initiators(1, 1, 2, 0);
    header(RESULT, TO_INITIATOR);
    taken("Result with 100 octets, 1 record", octets_of(100));
    initiators(RECORDS, RECORDS, 2, 0);
    header(RESULT, TO_INITIATOR | LAST);
    empty_items(16, 0);
    taken("Result with 16 items, 1,500 octets, the last of 48 records", octets_of(WTP_OUTPUT - 19));
    nothing();
    answer(NOW, WTP_INITIATOR, LAST, octets_of(WTP_EXIT));
    made();
    taken("Result again, answered with 128 octets of exit information: Ack with an Error item again", header(RESULT_AGAIN, TO_INITIATOR | LAST));
    initiators(RECORDS, RECORDS, 2, 0);
    header(RESULT, TO_INITIATOR | LAST);
    taken("Result with 17 items (D4): Abort 1 and an abort shown", empty_items(17, 0));
    header(RESULT_NO_TTR, TO_INITIATOR | (LAST - 1));
    taken("Result without TTR, 16 items: Abort 4 and an abort shown", empty_items(16, 0));
    header(RESULT, TO_INITIATOR | (LAST - 2));
    empty_items(15, 1);
    taken("Result whose sixteenth item runs past the end (D3)", info_item(255, 254));
}

static void acks(void)
{
    initiators(RECORDS, RECORDS, 1, 0);
    header(ACK, TO_INITIATOR | LAST);
    empty_items(15, 1);
    taken("Ack with 16 items, the last an Info item of 255 octets", info_item(255, 255));
    header(ACK, TO_INITIATOR | (LAST - 1));
    empty_items(16, 0);
    taken("Ack with 16 items and an octet more (D7)", octet(0));
    taken("TIDve: TIDok", header(TID_VERIFY, TO_INITIATOR | (LAST - 2)));
    taken("TIDve without a record: Abort 2", header(TID_VERIFY, TO_INITIATOR | RECORDS));
    responders(RECORDS, RECORDS, 2);
    nothing();
    result(NOW, WTP_RESPONDER, RECORDS, octets_of(WTP_CELL));
    made();
    header(ACK, RECORDS);
    empty_items(15, 1);
    taken("Ack of a Result with 16 items, the last an Info item of 255 octets", info_item(255, 255));
}

static void others(void)
{
    initiators(RECORDS, RECORDS, 2, 0);
    header(PROVIDER_ABORT, TO_INITIATOR | LAST);
    octet(1);
    taken("Abort with 16 items: an abort shown", empty_items(16, 0));
    header(ABORT_TYPE_2, TO_INITIATOR | (LAST - 1));
    octet(1);
    taken("Abort of type 2 (D6): Abort 1 and an abort shown", empty_items(16, 0));
    header(NACK, TO_INITIATOR | (LAST - 2));
    octet(255);
    octets_of(255);
    taken("Nack with 255 packet numbers and 16 items: ignored", empty_items(16, 0));
    header(SEGMENTED, TO_INITIATOR | (LAST - 3));
    octet(1);
    taken("Segmented Invoke with 16 items: ignored", empty_items(16, 0));
    header(0, TO_INITIATOR | (LAST - 3));
    taken("1,500 octets of type 0 (D2): Abort 1 and an abort shown", octets_of(WTP_OUTPUT - 3));
    nothing();
    taken("one octet: ignored", octet(INVOKE));
}

static void refused(void)
{
    nothing();
    receive(NOW, PEER, octets_of(WTP_OUTPUT + 1));
    row("refused, 11: 1,501 octets", WTP_WRONG_LENGTH);
    receive(NOW, UINT64_MAX, header(ACK, TO_INITIATOR));
    row("refused, 3: peer 2^64 - 1", WTP_PEER_TOO_LARGE);
    damaged();
    header(RESULT, TO_INITIATOR);
    receive(NOW, PEER, empty_items(16, 0));
    row("refused, 1: a table that isn't well formed", WTP_WRONG_SIZE);
}

/* Each of them once for a record of either role with its TID, 0 or 1. */
static void hostile_ones(void)
{
    for (uint64_t k = 0; k < HOSTILE; k++) {
        if (k % 2 == 0)
            initiators(RECORDS, 2, 2, 0);
        else
            verifying(RECORDS, 2);
        receive(NOW, PEER, hostile(k));
        one_of_many();
    }
    deepest("the deepest of 1,000 hostile PDUs");
}

void receive_rows(void)
{
    first_invokes();
    refused_invokes();
    repeated_invokes();
    results_taken();
    acks();
    others();
    refused();
    hostile_ones();
}
