/* Reads the bench cases of document 01, and an unknown item, through the proved library and says what each is. */
#include <stdio.h>
#include <string.h>

#include "wtp.h"

static const char *const types[8] = {"", "Invoke", "Result", "Ack", "Abort", "Segmented Invoke", "Segmented Result", "Nack"};

static void show_octets(const uint8_t *octets, size_t length)
{
    for (size_t i = 0; i < length; i++)
        printf("%02X ", octets[i]);
}

/* What a PDU says, or why it is none. */
static void show_pdu(const uint8_t *pdu, size_t length)
{
    uint64_t fields[WTP_FIELDS];
    uint64_t result = wtp_read(pdu, length, fields, WTP_FIELDS);
    show_octets(pdu, length);
    if (result > 100)
        printf("malformed, D%u\n", (unsigned)(result - 100));
    else if (result != WTP_OK)
        printf("refused, %u\n", (unsigned)result);
    else {
        printf("%s, TID %u%s%s", types[fields[WTP_TYPE]], (unsigned)(fields[WTP_TID] % 32768), fields[WTP_TIDNEW] ? ", TIDnew" : "",
               fields[WTP_RID] ? ", repeated" : "");
        for (uint64_t k = 0; k < fields[WTP_ITEMS]; k++) {
            const uint64_t *item = fields + WTP_ITEM + 4 * k;
            printf(", item %u: ", (unsigned)item[0]);
            show_octets(pdu + item[2], item[3]);
        }
        if (fields[WTP_UNKNOWN_IDENTITY])
            printf(", the item at octet %u isn't known", (unsigned)fields[WTP_UNKNOWN_PLACE]);
        printf("\n");
    }
}

/* Each PDU of a datagram. */
static void show_datagram(const uint8_t *datagram, size_t length)
{
    uint64_t part[WTP_PART];
    uint64_t result = wtp_separate(datagram, length, 0, part, WTP_PART);
    show_octets(datagram, length);
    if (result != WTP_OK) {
        printf("refused, %u\n", (unsigned)result);
        return;
    }
    uint64_t count = part[2];
    printf("%u PDUs\n", (unsigned)count);
    for (uint64_t k = 0; k < count; k++) {
        wtp_separate(datagram, length, k, part, WTP_PART);
        printf("  ");
        show_pdu(datagram + part[0], part[1]);
    }
}

int main(void)
{
    static const struct { size_t length; uint8_t octets[6]; } pdus[] = {
        {4, {0x0E, 0x00, 0x05, 0x22}}, {4, {0x0F, 0x00, 0x05, 0x22}}, {4, {0x0E, 0x00, 0x05, 0x02}}, {3, {0x16, 0x80, 0x05}}, {3, {0x1C, 0x80, 0x05}},
        {4, {0x20, 0x00, 0x05, 0x02}}, {6, {0x98, 0x00, 0x05, 0x0A, 0xAA, 0xBB}}, {1, {0x00}}, {3, {0x0E, 0x00, 0x05}},
        {4, {0x0E, 0x00, 0x05, 0x03}}, {4, {0x18, 0x80, 0x05, 0x00}},
        {5, {0x8E, 0x00, 0x41, 0x01, 0x30}}, {5, {0x98, 0x80, 0x41, 0x01, 0x16}}, /* an unknown item, and the Ack that names it */
    };
    static const uint8_t two[] = {0x00, 0x03, 0x18, 0x80, 0x05, 0x04, 0x20, 0x80, 0x06, 0x08};
    static const uint8_t none[] = {0x00, 0x00};
    for (size_t i = 0; i < sizeof pdus / sizeof *pdus; i++)
        show_pdu(pdus[i].octets, pdus[i].length);
    show_datagram(two, sizeof two);
    show_datagram(none, sizeof none);

    uint64_t fields[WTP_FIELDS], answer[WTP_ANSWER];
    uint8_t out[WTP_OUTPUT], exit_information[] = {0xAA, 0xBB};
    memset(fields, 0, sizeof fields);
    fields[WTP_TYPE] = 3;
    fields[WTP_TID] = 5;
    fields[WTP_ITEMS] = 1;
    fields[WTP_ITEM] = 1;
    fields[WTP_ITEM + 3] = sizeof exit_information;
    if (wtp_write(fields, WTP_FIELDS, exit_information, sizeof exit_information, out, sizeof out, answer, WTP_ANSWER) == WTP_OK) {
        printf("written: ");
        show_octets(out, answer[0]);
        printf("\n");
    }
    return 0;
}
