/* The proved library's side. */
#include <string.h>

#include "side.h"
#include "wtp.h"

#define MOST_RECORDS 48
#define PEER 7
#define NOW 1

static struct octets taken;
static uint64_t fields[WTP_FIELDS], answer[WTP_ANSWER], part[WTP_PART], settings[WTP_SETTINGS];
static uint8_t out[WTP_OUTPUT], table[16384], store[MOST_RECORDS * WTP_CELL];
static uint64_t records;
static unsigned next_tid;

#define LENT table, wtp_table_bytes(records), store, records * WTP_CELL, out, sizeof out, answer, WTP_ANSWER

static void accepted(uint64_t number, const char *call)
{
    if (number != 0)
        stop_with("library", call);
}

static void keep(struct octets *written)
{
    written->length = answer[WTP_SENT];
    memcpy(written->at, out, written->length);
}

static void take(const struct octets *pdu)
{
    taken = *pdu;
}

static void read_pdu(uint64_t times)
{
    while (times-- > 0)
        accepted(wtp_read(taken.at, taken.length, fields, WTP_FIELDS), "wtp_read");
}

static void write_pdu(uint64_t times, struct octets *written)
{
    read_pdu(1);
    while (times-- > 0)
        accepted(wtp_write(fields, WTP_FIELDS, taken.at, taken.length, out, sizeof out, answer, WTP_ANSWER), "wtp_write");
    keep(written);
}

static void separate(uint64_t times)
{
    while (times-- > 0) {
        uint64_t k = 0;
        do {
            accepted(wtp_separate(taken.at, taken.length, k, part, WTP_PART), "wtp_separate");
            accepted(wtp_read(taken.at + part[0], part[1], fields, WTP_FIELDS), "wtp_read");
        } while (++k < part[2]);
        if (k != PARTS)
            stop_with("library", "not every PDU of the datagram is read");
    }
}

static void receive(const struct octets *pdu)
{
    accepted(wtp_receive(LENT, NOW, PEER, pdu->at, pdu->length), "wtp_receive");
}

static void open_table(unsigned live)
{
    struct octets pdu;
    records = live + 1;
    settings[WTP_A] = settings[WTP_W] = 1000;
    for (int k = 0; k < 9; k++)
        settings[WTP_R_CLASS_1 + k] = settings[WTP_R_CLASS_2 + k] = 1000;
    accepted(wtp_fresh(table, wtp_table_bytes(records), settings, WTP_SETTINGS, 0), "wtp_fresh");
    invoke(&pdu, 0);
    receive(&pdu);
    tidok(&pdu, 0);
    receive(&pdu);
    user_abort(&pdu, 0);
    receive(&pdu);
    for (next_tid = 1; next_tid <= live; next_tid++) {
        invoke(&pdu, next_tid);
        receive(&pdu);
    }
}

static void transact(uint64_t times, struct octets *written)
{
    struct octets asked, acked;
    invoke(&asked, next_tid);
    last_ack(&acked, next_tid);
    for (; times > 0; times--, next_tid++) {
        asked.at[1] = acked.at[1] = (uint8_t)(next_tid >> 8);
        asked.at[2] = acked.at[2] = (uint8_t)next_tid;
        receive(&asked);
        if (answer[WTP_FIRST] != WTP_KIND_INVOKE)
            stop_with("library", "the Invoke isn't shown");
        accepted(wtp_result(LENT, NOW, WTP_RESPONDER, PEER, next_tid, asked.at + 4, DATA), "wtp_result");
        keep(written);
        receive(&acked);
        if (answer[WTP_FIRST] != WTP_KIND_CONFIRMATION)
            stop_with("library", "the result isn't confirmed");
    }
}

const struct side library = { "library", take, read_pdu, write_pdu, separate, open_table, transact };
