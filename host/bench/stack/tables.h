/* The tables from which the engine's rows begin. Every call on the way is made at this time. */
#ifndef TABLES_H
#define TABLES_H

#include "calls.h"

#define BEFORE 1
#define NOW 2

/* A fresh table and store. */
void open_table(size_t records);

/* A table with so many live initiator records, TIDs 0 and on, that wait for their result, with 1,024 octets of data each. */
void initiators(size_t records, unsigned live, uint64_t cls, uint64_t user_ack);

/* A table with so many live responder records, TIDs 1 and on, whose Invoke was shown; TID 0 was verified before, and aborted. */
void responders(size_t records, unsigned live, uint8_t fourth);

/* A table with one live responder record, TID 0, whose Invoke is being verified. */
void verifying(size_t records, uint8_t fourth);

/* The last of a table's initiator records of class 2 has shown its result. */
void result_shown(size_t records, uint64_t user_ack);

/* A full table of 48 initiator records of class 2, the last of which has shown a result whose 16 items are unknown. */
void unknown_in_the_last_result(void);

/* A full table of 48 responder records whose Invoke was shown; 16 items of the last one's are unknown. */
void unknown_in_the_last_invoke(uint8_t fourth);

/* A table of 48 records that isn't well formed: the last spare octet of the last record isn't zero. */
void damaged(void);

#endif
