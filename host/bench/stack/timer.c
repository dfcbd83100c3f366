/* Rows of the timer call, and of the two that it is made of. */
#include "pdus.h"
#include "rows.h"
#include "tables.h"

#define DUE (BEFORE + INTERVAL)
#define LAST (RECORDS - 1)

static void fires(const char *input, uint64_t now)
{
    timer(now);
    row(input, WTP_OK);
}

/* Makes the timer call so many times. */
static void fired(uint64_t now, int times)
{
    for (int k = 0; k < times; k++) {
        timer(now);
        made();
    }
}

static void sent_again(void)
{
    initiators(1, 1, 2, 0);
    fires("Invoke of 1,024 octets again, 1 record", DUE);
    initiators(RECORDS, RECORDS, 2, 0);
    fires("48 records due: the first sends its Invoke again", DUE);
    fired(DUE, LAST - 1);
    fires("Invoke of 1,024 octets again, the last of 48 records", DUE);
    fired(DUE + INTERVAL, RECORDS);
    fired(DUE + 2 * INTERVAL, LAST);
    fires("given up: an abort shown, the last of 48 records", DUE + 2 * INTERVAL);
    initiators(1, 1, 2, 0);
    receive(BEFORE, PEER, header(TID_VERIFY, TO_INITIATOR));
    made();
    fires("TIDok again, 1 record", DUE);
    responders(RECORDS, RECORDS, 2);
    nothing();
    result(BEFORE, WTP_RESPONDER, RECORDS, octets_of(WTP_CELL));
    made();
    fired(DUE, LAST);
    fires("Result of 1,024 octets again, the last of 48 records", DUE);
}

/* In the last two rows acknowledgement was asked for. */
static void no_answer(void)
{
    result_shown(1, 0);
    fires("Ack instead of the user, 1 record", DUE);
    fires("the end of WAIT TIMEOUT", DUE + INTERVAL);
    responders(RECORDS, RECORDS, 2);
    fired(DUE, LAST);
    fires("hold-on, the last of 48 records", DUE);
    unknown_in_the_last_invoke(2);
    fired(DUE, LAST);
    fires("hold-on with an Error item, the last of 48 records", DUE);
    unknown_in_the_last_result();
    fired(DUE, LAST);
    fires("Ack with an Error item instead of the user, the last of 48 records", DUE);
    result_shown(1, 1);
    fires("waits once more for the user", DUE);
    fires("Abort 8 and an abort shown: the user is silent", DUE + INTERVAL);
}

static void waits_end(void)
{
    verifying(RECORDS, 2);
    fires("waiting limit: the TID isn't verified", DUE);
    responders(RECORDS, RECORDS, 2);
    fired(DUE, RECORDS);
    fired(DUE + INTERVAL, LAST);
    fires("waiting limit: Abort 8 and an abort shown, the last of 48 records", DUE + INTERVAL);
    initiators(RECORDS, RECORDS, 2, 0);
    receive(BEFORE, PEER, header(ACK, TO_INITIATOR | LAST));
    made();
    fired(DUE, LAST);
    fires("waiting limit: held on, an abort shown, the last of 48 records", DUE);
}

static void nothing_fires(void)
{
    initiators(RECORDS, RECORDS, 2, 0);
    fires("none due, 48 records", NOW);
    timer(UINT64_MAX);
    row("refused, 2: the time 2^64 - 1", WTP_WRONG_TIME);
    damaged();
    timer(DUE);
    row("refused, 1: a table that isn't well formed", WTP_WRONG_SIZE);
}

static void in_two(void)
{
    initiators(RECORDS, RECORDS, 2, 0);
    deadline();
    row("48 records with a deadline", WTP_OK);
    fire(DUE, LAST);
    row("Invoke of 1,024 octets again, the last of 48 records", WTP_OK);
    fire(DUE, LAST);
    row("refused, 9: not due again", WTP_NOT_ALLOWED);
    fire(DUE, RECORDS);
    row("refused, 8: no such record", WTP_NO_RECORD);
    damaged();
    deadline();
    row("refused, 1: a table that isn't well formed", WTP_WRONG_SIZE);
}

void timer_rows(void)
{
    sent_again();
    no_answer();
    waits_end();
    nothing_fires();
    in_two();
}
