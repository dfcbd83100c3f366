/* Rows of the codec, of the fresh table and of its size. */
#include <string.h>

#include "pdus.h"
#include "rows.h"

static void sizes(void)
{
    table_bytes(RECORDS);
    row("48 records", wtp_table_bytes(RECORDS));
    table_bytes(UINT64_MAX);
    row("2^64 - 1 records", 0);
}

static void fresh_tables(void)
{
    uint64_t wrong[WTP_SETTINGS];
    fresh(wtp_table_bytes(1), settings, WTP_SETTINGS);
    row("1 record", WTP_OK);
    fresh(wtp_table_bytes(RECORDS), settings, WTP_SETTINGS);
    row("48 records", WTP_OK);
    fresh(wtp_table_bytes(RECORDS) + 1, settings, WTP_SETTINGS);
    row("refused, 1: an octet too many", WTP_WRONG_SIZE);
    memcpy(wrong, settings, sizeof wrong);
    wrong[WTP_SETTINGS - 1] = 1;
    fresh(wtp_table_bytes(RECORDS), wrong, WTP_SETTINGS);
    row("refused, 10: the last word", WTP_WRONG_SETTING);
}

static void sound_pdus(void)
{
    read_pdu(header(ACK, 5));
    row("Ack", WTP_OK);
    invoke(INVOKE, 5, 2);
    info_item(32, 32);
    read_pdu(octets_of(100));
    row("Invoke with an item and 100 octets of data", WTP_OK);
    invoke(INVOKE, 5, 2);
    empty_items(16, 0);
    read_pdu(octets_of(WTP_OUTPUT - 20));
    row("Invoke with 16 items, 1,500 octets", WTP_OK);
    header(NACK, 5);
    octet(255);
    octets_of(255);
    read_pdu(empty_items(16, 0));
    row("Nack with 255 packet numbers and 16 items", WTP_OK);
}

static void malformed_pdus(void)
{
    nothing();
    read_pdu(octets_of(WTP_OUTPUT + 1));
    row("refused, 11: 1,501 octets", WTP_WRONG_LENGTH);
    read_pdu(nothing());
    row("refused, 11: none", WTP_WRONG_LENGTH);
    read_pdu(octet(INVOKE));
    row("D1: one octet", WTP_D1);
    nothing();
    octet(0);
    read_pdu(octets_of(WTP_OUTPUT - 1));
    row("D2: type 0, 1,500 octets", WTP_D2);
    invoke(INVOKE, 5, 2);
    empty_items(15, 1);
    read_pdu(info_item(255, 254));
    row("D3: the sixteenth item runs past the end", WTP_D3);
    invoke(INVOKE, 5, 2);
    read_pdu(empty_items(17, 0));
    row("D4: 17 items", WTP_D4);
    invoke(INVOKE, 5, 3);
    read_pdu(empty_items(16, 0));
    row("D5: class 3, 16 items", WTP_D5);
    header(ABORT_TYPE_2, 5);
    octet(0);
    read_pdu(empty_items(16, 0));
    row("D6: abort type 2, 16 items", WTP_D6);
    header(ACK, 5);
    empty_items(16, 0);
    read_pdu(octet(0));
    row("D7: an octet after the 16 items of an Ack", WTP_D7);
}

static void any_pdus(void)
{
    lent.words_len = WTP_FIELDS - 1;
    read_pdu(header(ACK, 5));
    row("refused, 1: 87 words", WTP_WRONG_SIZE);
    lent.words_len = WTP_FIELDS;
    for (uint64_t k = 0; k < HOSTILE; k++) {
        read_pdu(hostile(k));
        one_of_many();
    }
    deepest("the deepest of 1,000 hostile PDUs");
}

/* Reads the PDU, then makes writing it ready. */
static void written(const struct octets *pdu)
{
    static uint64_t fields[WTP_FIELDS];
    read_pdu(pdu);
    made();
    memcpy(fields, lent.words, sizeof fields);
    write_pdu(fields, WTP_FIELDS, pdu);
}

static void sound_words(void)
{
    written(header(ACK, 5));
    row("Ack", WTP_OK);
    invoke(INVOKE, 5, 2);
    info_item(32, 32);
    written(octets_of(100));
    row("Invoke with an item and 100 octets of data", WTP_OK);
    invoke(INVOKE, 5, 2);
    empty_items(16, 0);
    written(octets_of(WTP_OUTPUT - 20));
    row("Invoke with 16 items, 1,500 octets", WTP_OK);
    header(NACK, 5);
    octet(255);
    octets_of(255);
    written(empty_items(16, 0));
    row("Nack with 255 packet numbers and 16 items", WTP_OK);
}

/* Words of an Invoke with so many empty items. */
static void say_items(uint64_t *fields, uint64_t count)
{
    memset(fields, 0, WTP_FIELDS * sizeof fields[0]);
    fields[WTP_TYPE] = 1;
    fields[WTP_CLASS] = 2;
    fields[WTP_ITEMS] = count;
}

static void wrong_words(void)
{
    uint64_t fields[WTP_FIELDS];
    nothing();
    memset(fields, 0xFF, sizeof fields);
    write_pdu(fields, WTP_FIELDS, octets_of(WTP_OUTPUT));
    row("D2: every word 2^64 - 1", WTP_D2);
    fields[WTP_TYPE] = 1;
    write_pdu(fields, WTP_FIELDS, octets_of(0));
    row("refused, 11: an Invoke, every other word 2^64 - 1", WTP_WRONG_LENGTH);
    say_items(fields, 16);
    fields[WTP_ITEM + 4 * 15] = 16;
    write_pdu(fields, WTP_FIELDS, octets_of(0));
    row("D1: the sixteenth item's identity is 16", WTP_D1);
    say_items(fields, 16);
    fields[WTP_ITEM + 4 * 15 + 2] = UINT64_MAX;
    write_pdu(fields, WTP_FIELDS, octets_of(0));
    row("D3: the sixteenth item starts at 2^64 - 1", WTP_D3);
    say_items(fields, 17);
    write_pdu(fields, WTP_FIELDS, octets_of(0));
    row("D4: 17 items", WTP_D4);
    write_pdu(fields, WTP_FIELDS - 1, octets_of(0));
    row("refused, 1: 87 words", WTP_WRONG_SIZE);
}

/* A datagram as full as can be: 749 PDUs of one octet. */
static const struct octets *full_datagram(void)
{
    nothing();
    octet(0);
    for (int k = 0; k < SMALL_PDUS; k++) {
        octet(1);
        octet(0xA5);
    }
    return octets_of(0);
}

static void datagrams(void)
{
    lent.words_len = WTP_PART;
    separate(header(ACK, 5), 0);
    row("one PDU", WTP_OK);
    separate(full_datagram(), SMALL_PDUS - 1);
    row("749 PDUs, the last", WTP_OK);
    separate(full_datagram(), UINT64_MAX);
    row("749 PDUs, and none of that place", WTP_OK);
    full_datagram();
    separate(octet(0), 0);
    row("refused, 11: length 0 after 749 PDUs", WTP_WRONG_LENGTH);
    lent.words_len = WTP_PART - 1;
    separate(full_datagram(), 0);
    row("refused, 1: 2 words", WTP_WRONG_SIZE);
    lent.words_len = WTP_FIELDS;
}

static void joined(void)
{
    static uint64_t lengths[SMALL_PDUS + 1];
    for (int k = 0; k <= SMALL_PDUS; k++)
        lengths[k] = 1;
    nothing();
    join(octets_of(1), lengths, 1);
    row("one PDU", WTP_OK);
    nothing();
    join(octets_of(SMALL_PDUS), lengths, SMALL_PDUS);
    row("749 PDUs of one octet", WTP_OK);
    join(octets_of(1), lengths, SMALL_PDUS + 1);
    row("refused, 11: 750 PDUs of one octet", WTP_WRONG_LENGTH);
    lengths[SMALL_PDUS] = UINT64_MAX;
    join(octets_of(0), lengths, SMALL_PDUS + 1);
    row("refused, 11: a length of 2^64 - 1", WTP_WRONG_LENGTH);
    join(octets_of(0), lengths, 0);
    row("refused, 11: no PDU", WTP_WRONG_LENGTH);
}

/* A datagram whose second PDU is an Invoke with so many empty items. */
static const struct octets *with_items(unsigned count)
{
    static struct octets datagram;
    const struct octets *pdu;
    invoke(INVOKE, 5, 2);
    pdu = empty_items(count, 0);
    memcpy(datagram.at, (const uint8_t[]){ 0, 3, ACK, 0, 5, (uint8_t)pdu->length }, 6);
    memcpy(datagram.at + 6, pdu->at, pdu->length);
    datagram.length = 6 + pdu->length;
    return &datagram;
}

static void parts_read(void)
{
    read_part(with_items(1), 0);
    row("two PDUs, the first", WTP_OK);
    read_part(with_items(16), 1);
    row("two PDUs, the second with 16 items", WTP_OK);
    read_part(with_items(17), 1);
    row("D4: two PDUs, the second with 17 items", WTP_D4);
    read_part(full_datagram(), SMALL_PDUS - 1);
    row("D1: 749 PDUs of one octet, the last", WTP_D1);
    read_part(full_datagram(), UINT64_MAX);
    row("refused, 11: 749 PDUs, and none of that place", WTP_WRONG_LENGTH);
    lent.words_len = WTP_FIELDS - 1;
    read_part(with_items(1), 0);
    row("refused, 1: 87 words", WTP_WRONG_SIZE);
    lent.words_len = WTP_FIELDS;
}

static void data_copied(void)
{
    nothing();
    octets_of(WTP_OUTPUT);
    memset(lent.answer, 0, sizeof lent.answer);
    lent.answer[WTP_FIRST + WTP_SHOWN_LENGTH] = WTP_OUTPUT;
    shown_data(octets_of(0), 0);
    row("1,500 octets of the datagram", WTP_OK);
    lent.answer[WTP_SECOND + WTP_SHOWN_SOURCE] = WTP_FROM_STORE;
    lent.answer[WTP_SECOND + WTP_SHOWN_START] = (RECORDS - 1) * WTP_CELL;
    lent.answer[WTP_SECOND + WTP_SHOWN_LENGTH] = WTP_CELL;
    shown_data(octets_of(0), 1);
    row("1,024 octets of the store", WTP_OK);
    lent.answer[WTP_SECOND + WTP_SHOWN_START] = UINT64_MAX;
    shown_data(octets_of(0), 1);
    row("refused, 11: a start of 2^64 - 1", WTP_WRONG_LENGTH);
    lent.answer[WTP_SECOND + WTP_SHOWN_LENGTH] = UINT64_MAX;
    shown_data(octets_of(0), 1);
    row("refused, 1: a length of 2^64 - 1", WTP_WRONG_SIZE);
}

void codec_rows(void)
{
    lent.answer_len = WTP_ANSWER;
    lent.words_len = WTP_FIELDS;
    sizes();
    fresh_tables();
    sound_pdus();
    malformed_pdus();
    any_pdus();
    sound_words();
    wrong_words();
    datagrams();
    joined();
    parts_read();
    data_copied();
}
