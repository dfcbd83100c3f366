/* The rows, call by call. */
#ifndef ROWS_H
#define ROWS_H

#include "calls.h"

#define HOSTILE 1000   /* PDUs of a row that tries many */
#define SMALL_PDUS 749 /* as many PDUs of one octet as a datagram of 1,500 octets has */

/* RCR_MAX 2 and AEC_MAX 1, so that waits are soon given up; every interval is this one. */
#define INTERVAL 1000
extern const uint64_t settings[WTP_SETTINGS];

void codec_rows(void);
void user_rows(void);    /* request, answer, result, abort */
void receive_rows(void);
void timer_rows(void);
void salvage_rows(void);
void rds_rows(void);     /* of librds.a, for which no bound is asked */

#endif
