/* Five class 2 transactions between a reader (the initiator) and a gateway (the responder): a result with data, one whose
 * Invoke is lost and sent again, a result without data, an abort, and one that nobody answers, which the waiting limit ends.
 * Each is shown to the reader as what it is, with what the reader has sent for it. */
#include <stdio.h>
#include <stdlib.h>
#include <string.h>

#include "wtp.h"

#define RECORDS 4

struct end {
    const char *name;
    uint64_t peer; /* the number that this end has for the other */
    uint64_t table_len;
    uint8_t table[2048], store[RECORDS * WTP_CELL], out[WTP_SENDING];
    uint64_t answer[WTP_ANSWER];
};

/* The parameters that each engine call begins with. */
#define LENT(e) (e)->table, (e)->table_len, (e)->store, sizeof (e)->store, (e)->out, sizeof (e)->out, (e)->answer, WTP_ANSWER

static struct end reader = {.name = "reader", .peer = 7}, gateway = {.name = "gateway", .peer = 9};
static uint64_t now;

static void must(uint64_t result)
{
    if (result != WTP_OK) {
        printf("refused, %u\n", (unsigned)result);
        exit(1);
    }
}

static void start(struct end *e)
{
    uint64_t settings[WTP_SETTINGS] = {0};
    settings[WTP_RCR_MAX] = settings[WTP_AEC_MAX] = 4;
    settings[WTP_A] = 2000;
    settings[WTP_W] = 30000;
    for (int k = 0; k < 9; k++)
        settings[WTP_R_CLASS_1 + k] = settings[WTP_R_CLASS_2 + k] = 5000;
    settings[WTP_MODES] = WTP_MODE_WAITING_LIMIT;
    settings[WTP_WAITING_LIMIT] = 60000;
    e->table_len = wtp_table_bytes(RECORDS);
    must(wtp_fresh(e->table, e->table_len, settings, WTP_SETTINGS, 5));
}

/* What the user of this end is shown, and what its own request has cost; the data lies in the PDU or in the store. */
static void show(const struct end *e, const uint8_t *pdu)
{
    for (uint64_t k = 0; k < e->answer[WTP_INDICATIONS]; k++) {
        const uint64_t *shown = e->answer + (k == 0 ? WTP_FIRST : WTP_SECOND);
        const uint8_t *data = (shown[WTP_SHOWN_SOURCE] == WTP_FROM_STORE ? e->store : pdu) + shown[WTP_SHOWN_START];
        int length = (int)shown[WTP_SHOWN_LENGTH];
        printf("  the %s's user is shown, of TID %u, ", e->name, (unsigned)shown[WTP_SHOWN_TID]);
        switch (shown[WTP_SHOWN_KIND]) {
        case WTP_KIND_INVOKE: printf("an Invoke: \"%.*s\"\n", length, (const char *)data); break;
        case WTP_KIND_CONFIRMATION: printf("a confirmation\n"); break;
        case WTP_KIND_RESULT:
            if (length > 0)
                printf("a result: \"%.*s\"\n", length, (const char *)data);
            else
                printf("a result without data\n");
            break;
        case WTP_KIND_ABORT:
            printf("an abort of the %s, reason %u\n", shown[WTP_SHOWN_ABORT_TYPE] == WTP_ABORT_USER ? "user" : "provider",
                   (unsigned)shown[WTP_SHOWN_REASON]);
            break;
        }
    }
    if (e->answer[WTP_INDICATIONS] > 0 && e->answer[WTP_COST] > 0)
        printf("  by now the %s's request has cost %u octets%s\n", e->name, (unsigned)e->answer[WTP_COST],
               e->answer[WTP_COST_ENDED] ? ", and it has ended" : "");
}

/* Takes the PDUs to and fro until neither end has one to send. */
static void deliver(struct end *from, struct end *to)
{
    while (from->answer[WTP_SENT] > 0) {
        uint8_t pdu[WTP_SENDING];
        size_t length = from->answer[WTP_SENT];
        memcpy(pdu, from->out, length);
        printf("%s to %s:", from->name, to->name);
        for (size_t i = 0; i < length; i++)
            printf(" %02X", pdu[i]);
        printf("\n");
        must(wtp_receive(LENT(to), ++now, to->peer, pdu, length));
        show(to, pdu);
        struct end *turned = from;
        from = to;
        to = turned;
    }
}

static uint64_t request(const char *question)
{
    must(wtp_request(LENT(&reader), ++now, reader.peer, 2, 0, (const uint8_t *)question, strlen(question)));
    return reader.answer[WTP_GIVEN_TID];
}

static uint64_t ask(const char *question)
{
    uint64_t tid = request(question);
    deliver(&reader, &gateway);
    return tid;
}

/* With nothing to do until its next deadline, a device would sleep; then it fires the record that is due. */
static void sleep_and_fire(struct end *e, struct end *other)
{
    uint64_t due[WTP_DUE];
    must(wtp_deadline(e->table, e->table_len, due, WTP_DUE));
    if (!due[WTP_DUE_ANY])
        return;
    printf("the %s sleeps for %u ms\n", e->name, (unsigned)(due[WTP_DUE_AT] - now));
    now = due[WTP_DUE_AT];
    must(wtp_fire(LENT(e), now, due[WTP_DUE_ROLE], due[WTP_DUE_PEER], due[WTP_DUE_TID]));
    show(e, e->out);
    deliver(e, other);
}

static uint64_t ask_twice(const char *question)
{
    uint64_t tid = request(question);
    printf("the reader's Invoke is lost\n");
    sleep_and_fire(&reader, &gateway);
    return tid;
}

static void reply(uint64_t tid, const char *text)
{
    must(wtp_result(LENT(&gateway), ++now, WTP_RESPONDER, gateway.peer, tid, (const uint8_t *)text, strlen(text)));
    deliver(&gateway, &reader);
    must(wtp_answer(LENT(&reader), ++now, WTP_INITIATOR, reader.peer, tid, (const uint8_t *)"", 0));
    deliver(&reader, &gateway);
}

int main(void)
{
    start(&reader);
    start(&gateway);
    reply(ask("sampler 17"), "0.8 ug/m3");
    reply(ask_twice("sampler 18"), "1.4 ug/m3");
    reply(ask("sampler 19"), "");
    uint64_t tid = ask("sampler 20");
    must(wtp_abort(LENT(&gateway), ++now, WTP_RESPONDER, gateway.peer, tid, 200));
    deliver(&gateway, &reader);
    ask("sampler 21"); /* the gateway's user never answers: a hold-on, and then the end of the waiting limit */
    sleep_and_fire(&gateway, &reader);
    sleep_and_fire(&gateway, &reader);
    return 0;
}
