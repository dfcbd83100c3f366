/* Rows of salvage. */
#include <string.h>

#include "rows.h"
#include "tables.h"

#define RCR_MAX 10 /* docs/TABLE.md */
#define RECORD (wtp_table_bytes(2) - wtp_table_bytes(1))

static uint8_t *record(size_t place)
{
    return lent.table + wtp_table_bytes(1) - RECORD + RECORD * place;
}

static void salvaged(const char *input, uint64_t number)
{
    salvage();
    row(input, number);
}

void salvage_rows(void)
{
    lent.list_len = WTP_SALVAGED;
    initiators(RECORDS, RECORDS, 2, 0);
    salvaged("48 records, well formed", WTP_OK);
    for (size_t place = 1; place < RECORDS; place++)
        memcpy(record(place), record(0), RECORD);
    salvaged("48 records of one name", WTP_OK);
    memset(record(0), 0xFF, RECORDS * RECORD);
    salvaged("48 records out of range", WTP_OK);
    open_table(RECORDS);
    for (size_t place = 0; place < RECORDS; place++)
        record(place)[RECORD - 1] = 1;
    salvaged("48 free records that aren't zero", WTP_OK);
    lent.table[RCR_MAX] = 9;
    salvaged("refused, 15: RCR_MAX 9", WTP_WRONG_HEADER);
    lent.list_len = WTP_SALVAGED - 1;
    salvaged("refused, 1: 96 words", WTP_WRONG_SIZE);
}
