/* Rows of the user's four calls. */
#include "pdus.h"
#include "rows.h"
#include "tables.h"

#define LAST (RECORDS - 1)
#define GEN_TID 8 /* docs/TABLE.md: its low octet */

/* So many octets, for the user's data. */
static const struct octets *data(size_t count)
{
    nothing();
    return octets_of(count);
}

static void requests(void)
{
    open_table(1);
    request(NOW, 2, 1, data(0));
    row("class 2, no data, 1 record", WTP_OK);
    initiators(RECORDS, LAST, 2, 0);
    request(NOW, 1, 0, data(WTP_CELL));
    row("class 1, 1,024 octets, the last of 48 records", WTP_OK);
    request(NOW, 0, 0, data(WTP_CELL));
    row("class 0, 1,024 octets, at a full table", WTP_OK);
    request(NOW, 2, 0, data(WTP_CELL));
    row("refused, 7: a full table", WTP_TABLE_FULL);
    lent.table[GEN_TID] = LAST;
    request(NOW, 2, 0, data(WTP_CELL));
    row("refused, 6: the TID of the last record", WTP_TID_IN_USE);
    request(NOW, UINT64_MAX, 0, data(WTP_CELL + 1));
    row("refused, 4: 1,025 octets", WTP_TOO_LONG);
    damaged();
    request(NOW, 2, 0, data(0));
    row("refused, 1: a table that isn't well formed", WTP_WRONG_SIZE);
}

static void answers(void)
{
    result_shown(1, 1);
    answer(NOW, WTP_INITIATOR, 0, data(2));
    row("to a Result, 2 octets of exit information, 1 record", WTP_OK);
    result_shown(RECORDS, 1);
    answer(NOW, WTP_INITIATOR, LAST, data(WTP_EXIT));
    row("to a Result, 128 octets of exit information, the last of 48 records", WTP_OK);
    responders(RECORDS, RECORDS, 1);
    answer(NOW, WTP_RESPONDER, RECORDS, data(WTP_EXIT));
    row("to an Invoke of class 1, 128 octets of exit information, the last of 48 records", WTP_OK);
    unknown_in_the_last_result();
    answer(NOW, WTP_INITIATOR, LAST, data(WTP_EXIT));
    row("to a Result with 16 unknown items, 128 octets of exit information: Ack with an Error item, the last of 48 records", WTP_OK);
    unknown_in_the_last_invoke(1);
    answer(NOW, WTP_RESPONDER, RECORDS, data(WTP_EXIT));
    row("to an Invoke of class 1 with 16 unknown items, 128 octets of exit information: Ack with an Error item, the last of 48 records", WTP_OK);
    responders(RECORDS, RECORDS, 2);
    answer(NOW, WTP_RESPONDER, RECORDS, data(0));
    row("to an Invoke of class 2, the last of 48 records", WTP_OK);
    answer(NOW, WTP_RESPONDER, RECORDS, data(1));
    row("refused, 4: exit information for class 2", WTP_TOO_LONG);
    answer(NOW, WTP_RESPONDER, RECORDS, data(255));
    row("refused, 4: 255 octets of exit information", WTP_TOO_LONG);
    answer(NOW, UINT64_MAX, UINT64_MAX, data(WTP_EXIT));
    row("refused, 8: no such record", WTP_NO_RECORD);
    initiators(RECORDS, RECORDS, 2, 0);
    answer(NOW, WTP_INITIATOR, LAST, data(WTP_EXIT));
    row("refused, 9: nothing to answer", WTP_NOT_ALLOWED);
    lent.answer_len = WTP_ANSWER - 1;
    answer(NOW, WTP_INITIATOR, LAST, data(WTP_EXIT));
    row("refused, 1: 39 words", WTP_WRONG_SIZE);
}

static void results(void)
{
    responders(1, 1, 2);
    result(NOW, WTP_RESPONDER, 1, data(0));
    row("empty, 1 record", WTP_OK);
    responders(RECORDS, RECORDS, 2);
    result(NOW, WTP_RESPONDER, RECORDS, data(WTP_CELL));
    row("1,024 octets, the last of 48 records", WTP_OK);
    result(NOW, WTP_RESPONDER, RECORDS, data(WTP_CELL));
    row("refused, 9: a second result", WTP_NOT_ALLOWED);
    result(NOW, WTP_RESPONDER, RECORDS, data(WTP_CELL + 1));
    row("refused, 4: 1,025 octets", WTP_TOO_LONG);
    result(NOW, WTP_INITIATOR, 0, data(WTP_CELL));
    row("refused, 8: no such record", WTP_NO_RECORD);
}

static void aborts(void)
{
    initiators(1, 1, 2, 0);
    user_abort(NOW, WTP_INITIATOR, 0);
    row("of an initiator, 1 record", WTP_OK);
    responders(RECORDS, RECORDS, 2);
    user_abort(NOW, WTP_RESPONDER, RECORDS);
    row("of a responder, the last of 48 records", WTP_OK);
    user_abort(NOW, WTP_RESPONDER, RECORDS);
    row("refused, 8: once more", WTP_NO_RECORD);
    verifying(RECORDS, 2);
    user_abort(NOW, WTP_RESPONDER, 0);
    row("refused, 9: an Invoke that is being verified", WTP_NOT_ALLOWED);
    user_abort(0, WTP_RESPONDER, 0);
    row("refused, 2: a time before the last", WTP_WRONG_TIME);
}

void user_rows(void)
{
    requests();
    answers();
    results();
    aborts();
}
