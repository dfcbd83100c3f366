/* The buffers that are lent, the calls over them, and the rows of the table. */
#ifndef CALLS_H
#define CALLS_H

#include <stddef.h>
#include <stdint.h>

#include "rds.h"
#include "wtp.h"

#define RECORDS 48
#define PEER 7

struct octets {
    uint8_t at[2 * WTP_OUTPUT];
    size_t length;
};

/* What is lent, and how many octets and words of it. */
extern struct lent {
    uint8_t table[16384], store[RECORDS * WTP_CELL], out[WTP_OUTPUT];
    uint64_t answer[WTP_ANSWER], words[WTP_FIELDS], list[WTP_SALVAGED];
    size_t records, answer_len, words_len, list_len;
    uint8_t book[8192], frame[RDS_OUTPUT]; /* of the Reliable Data Service, as the words that follow */
    uint64_t told[RDS_FIELDS];
} lent;

/* Makes a call ready, by its name; its arguments are words. */
void set_ready(const char *name, void (*function)(void), const uint64_t *arguments, size_t size);
#define WORDS(...) (const uint64_t[]){ __VA_ARGS__ }, sizeof(const uint64_t[]){ __VA_ARGS__ }
#define READY(call, ...) set_ready(#call, (void (*)(void))call, WORDS(__VA_ARGS__))
#define AT(pointer) (uint64_t)(uintptr_t)(pointer)
#define PART_OF(octets) AT((octets)->at), (octets)->length

/* Each makes the call ready over what is lent; then `made` or a row makes it. */
void table_bytes(uint64_t records);
void fresh(size_t table_len, const uint64_t *settings, size_t settings_len);
void request(uint64_t now, uint64_t cls, uint64_t user_ack, const struct octets *data);
void answer(uint64_t now, uint64_t role, uint64_t tid, const struct octets *exit_information);
void result(uint64_t now, uint64_t role, uint64_t tid, const struct octets *data);
void user_abort(uint64_t now, uint64_t role, uint64_t tid);
void receive(uint64_t now, uint64_t peer, const struct octets *pdu);
void timer(uint64_t now);
void fire(uint64_t now, uint64_t tid); /* a record of an initiator */
void deadline(void);
void salvage(void);
void read_pdu(const struct octets *pdu);
void write_pdu(const uint64_t *fields, size_t fields_len, const struct octets *bytes);
void separate(const struct octets *datagram, uint64_t k);
void join(const struct octets *bytes, const uint64_t *lengths, size_t lengths_len);
void read_part(const struct octets *datagram, uint64_t k);
void shown_data(const struct octets *datagram, uint64_t k);

/* Makes the call that is ready; it must be accepted. */
void made(void);

/* Makes the call that is ready twice from the same buffers, on a stack with another paint each time; it must answer this number.
 * The deeper of the two is a row of the table, under this name of its input. */
void row(const char *input, uint64_t number);

/* The same of many calls: each is made, with any number, and then the deepest of them is one row. */
void one_of_many(void);
void deepest(const char *input);

/* Whether rows are printed. */
extern int rows_shown;

/* How deep a call went in all rows so far; 0 where it has none. */
size_t most(const char *name);

/* A number as the tables of docs/ have it: 1,024. The text is good until the next number. */
const char *thousands(size_t number);

/* Ends the program with one line. */
void stop_with(const char *where, const char *what);

#endif
