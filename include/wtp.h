/* The Wireless Transaction Protocol (WAP-224), proved: the C interface.
 *
 * A slice is a pointer and then a count of its elements. A pointer is never null, also where the count is 0, and the
 * buffers lent to one call don't overlap. That is all a caller owes: every value is otherwise allowed.
 * The result is 0 where the call was accepted, 1 to 11 and 15 a refusal with its number of documents 01 and 02 (the others up
 * to 16 are kept for document 02), and 101 to 107 for D1 to D7 of a malformed PDU. A call that was not accepted changes no
 * lent byte and no lent word.
 */
#ifndef WTP_H
#define WTP_H

#include <stddef.h>
#include <stdint.h>

#ifdef __cplusplus
extern "C" {
#endif

/* Results. */
#define WTP_OK 0
#define WTP_WRONG_SIZE 1     /* a lent buffer has the wrong size, or the table isn't well formed */
#define WTP_WRONG_TIME 2     /* the time is below the last accepted one or over 1,000,000,000,000 */
#define WTP_PEER_TOO_LARGE 3 /* peer over 255 */
#define WTP_TOO_LONG 4       /* data over 1,024, exit information over 128, or exit information for a class 2 responder record */
#define WTP_WRONG_CLASS 5    /* class over 2 */
#define WTP_TID_IN_USE 6     /* the next TID is that of a live initiator record */
#define WTP_TABLE_FULL 7     /* class 1 or 2 requested and no record is free */
#define WTP_NO_RECORD 8      /* no live record of that role, peer and TID */
#define WTP_NOT_ALLOWED 9    /* the record's state doesn't allow the call; wtp_fire: the record isn't due */
#define WTP_WRONG_SETTING 10 /* a setting or the first TID is out of range */
#define WTP_WRONG_LENGTH 11  /* a length outside 1 to 1,500, a datagram that can't be separated, no PDU to join or no such part */
#define WTP_WRONG_HEADER 15  /* wtp_salvage: a field of the table outside its records is out of range */
#define WTP_D1 101           /* the fixed header is cut short; in writing, a value too wide for its place */
#define WTP_D2 102           /* the type is 0 or over 7 */
#define WTP_D3 103           /* an item runs past the end */
#define WTP_D4 104           /* the sixteenth item has CON set */
#define WTP_D5 105           /* class 3 */
#define WTP_D6 106           /* abort type over 1 */
#define WTP_D7 107           /* bytes are left after an Ack, Abort or Nack */

/* Sizes, in elements. */
#define WTP_SETTINGS 32 /* words of settings */
#define WTP_FIELDS 88   /* words of a PDU */
#define WTP_ANSWER 40   /* words of an answer, at least */
#define WTP_PART 3      /* words of a part */
#define WTP_DUE 5       /* words of a deadline, at least */
#define WTP_SALVAGED 97 /* words of a list of salvaged places, at least */
#define WTP_CELL 1024   /* octets of the store for each record of the table; data is as long at most */
#define WTP_EXIT 128    /* octets of exit information, at most; none is exit information of length 0 */
#define WTP_SENDING 1028 /* octets of the output that the engine's seven calls ask for, at least */
#define WTP_OUTPUT 1500 /* octets of the output that wtp_write and wtp_join ask for, at least */

/* Roles. */
#define WTP_INITIATOR 0
#define WTP_RESPONDER 1

/* Kinds of indication. A result without data is a result; an abort is never shown as one. */
#define WTP_KIND_INVOKE 1
#define WTP_KIND_CONFIRMATION 2
#define WTP_KIND_RESULT 3
#define WTP_KIND_ABORT 4

/* Abort types, and the reasons of a provider; a user's reason is the user's own octet. */
#define WTP_ABORT_PROVIDER 0
#define WTP_ABORT_USER 1
#define WTP_REASON_PROTOERR 1
#define WTP_REASON_INVALIDTID 2
#define WTP_REASON_NOTIMPLEMENTEDSAR 4
#define WTP_REASON_WTPVERSIONONE 6
#define WTP_REASON_CAPTEMPEXCEEDED 7
#define WTP_REASON_NORESPONSE 8

/* Where the data of an indication lies. */
#define WTP_FROM_DATAGRAM 0 /* its start counts from the first octet of the PDU that wtp_receive was lent */
#define WTP_FROM_STORE 1    /* its start counts from the first octet of the store */

/* Words of an answer; those without a name are 0. */
enum {
    WTP_SENT = 0,       /* octets at the start of the output that are to be sent, 0 none */
    WTP_INDICATIONS,    /* 0 to 2 */
    WTP_GIVEN_TID,      /* wtp_request: the TID given to the request */
    WTP_FIRED,          /* wtp_timer, wtp_fire: 1 a record was fired; 0 none was due */
    WTP_FIRST = 4,      /* the first indication, 12 words, 0 where there is none */
    WTP_SECOND = 16,    /* the second indication */
    WTP_FIRED_ROLE = 28, /* wtp_timer, wtp_fire: the record that was fired, and so where the PDU goes */
    WTP_FIRED_PEER,
    WTP_FIRED_TID,
    WTP_COST = 32,      /* octets of all Invokes and TIDoks by now of the initiator record of class 1 or 2 that the call opened, named, also */
    WTP_COST_ENDED,     /* by a PDU that is ignored, or fired; and 1 where that record ended in this call. Both 0: there is no such record */
    WTP_TOLD_UNKNOWN_IDENTITY = 34, /* wtp_receive: the first item of the PDU that section 8.4 hasn't, 6 to 15, whatever the PDU did; */
    WTP_TOLD_UNKNOWN_PLACE          /* and the place of the item's first octet in the PDU. Both 0: none, or the PDU is malformed */
};

/* Words of an indication, counted from WTP_FIRST or WTP_SECOND; the last word is 0. */
enum {
    WTP_SHOWN_KIND = 0,
    WTP_SHOWN_ROLE, WTP_SHOWN_PEER, WTP_SHOWN_TID, /* the record that it concerns */
    WTP_SHOWN_CLASS, WTP_SHOWN_UP,                 /* an Invoke, else 0 */
    WTP_SHOWN_ABORT_TYPE, WTP_SHOWN_REASON,        /* an abort, else 0 */
    WTP_SHOWN_SOURCE, WTP_SHOWN_START, WTP_SHOWN_LENGTH /* its data; all 0 where nothing carries data */
};

/* Words of a deadline; all 0 where no record has one. */
enum {
    WTP_DUE_ANY = 0, /* 1 where a record has a deadline */
    WTP_DUE_AT,      /* the earliest deadline, in milliseconds */
    WTP_DUE_ROLE, WTP_DUE_PEER, WTP_DUE_TID /* its record, for wtp_fire */
};

/* Words of a list of salvaged places; those past its places are 0. */
enum {
    WTP_SALVAGED_PLACES = 0, /* how many places were changed */
    WTP_SALVAGED_PLACE,      /* place k has the words WTP_SALVAGED_PLACE + 2k and WTP_SALVAGED_REASON + 2k; places count from 0 and rise */
    WTP_SALVAGED_REASON
};

/* Why a place was changed: the first of these that holds. */
#define WTP_SALVAGED_OUT_OF_RANGE 1 /* a live record, or one of an unknown state, had a field out of range */
#define WTP_SALVAGED_NOT_ZERO 2     /* a free record wasn't zero */
#define WTP_SALVAGED_SAME_NAME 3    /* it shared role, peer and TID with a live record of a lower place */

/* Words of a PDU. */
enum {
    WTP_TYPE = 0, WTP_GTR, WTP_TTR, WTP_RID, WTP_TID, WTP_VERSION, WTP_TIDNEW, WTP_UP, WTP_CLASS, WTP_TVE,
    WTP_ABORT_TYPE, WTP_ABORT_REASON, WTP_PACKET, WTP_NACK_COUNT, WTP_NACK_START, WTP_ITEMS, WTP_USER_START, WTP_USER_LENGTH,
    WTP_UNKNOWN_IDENTITY, WTP_UNKNOWN_PLACE, /* the first item that 8.4 hasn't, 6 to 15, and the place of its first octet; 0, 0: none */
    WTP_ITEM = 24 /* item k has the words WTP_ITEM + 4k: identity, 1 for the long form or 0, start and length of its data */
};

/* Words of settings: RCR_MAX, AEC_MAX, A, W, nine R of class 1 from word 4 on, nine R of class 2 from word 13 on, the modes and the
 * waiting limit, then zeros. */
enum { WTP_RCR_MAX = 0, WTP_AEC_MAX, WTP_A, WTP_W, WTP_R_CLASS_1, WTP_R_CLASS_2 = 13, WTP_MODES = 22, WTP_WAITING_LIMIT };

/* Modes: 0, or this one, with a waiting limit of 1 to 86,400,000 ms, which is 0 without it. Where a record would wait without a timer,
 * the limit is then its deadline, told and fired like any other. At its end a responder's record whose Invoke is still being verified
 * ends silently, an initiator's that was held on ends with an abort (provider, WTP_REASON_NORESPONSE), and a responder's that has sent
 * a hold-on sends that Abort, shows it and ends. Without the mode such a record stays until a PDU or its user ends it. */
#define WTP_MODE_WAITING_LIMIT 1

/* The bytes of a table for 1 to 48 records, else 0. */
uint64_t wtp_table_bytes(uint64_t records);

/* Makes a table fresh, whatever it held: no live record, nothing cached, clock 0, these settings, and `first_tid` for the first request.
 * 1: not the size of a table for 1 to 48 records; 10: not 32 words, or one of them or `first_tid` out of range, also a mode that
 * there isn't, and a waiting limit without its mode or the mode without one. */
uint64_t wtp_fresh(uint8_t *table, size_t table_len, const uint64_t *settings, size_t settings_len, uint64_t first_tid);

/* The engine's seven calls share their first parameters. `table` is one that wtp_fresh made, `store` has 1,024 octets for each of its
 * records, `out` at least 1,028 octets and `answer` at least 40 words. Between two calls all four are the caller's, to keep or to
 * copy: the engine has no other memory. `now` is in milliseconds. An accepted call stores it, writes at most one PDU at the start
 * of `out` (for the peer that the call, or the fired record, names) and the first 40 words of `answer`. Each call gives the lowest
 * number that applies; 1 (a size, a table that isn't well formed) and 2 (the time) apply to all seven. */

/* Requests a transaction of class `cls` with `peer`: sends an Invoke with `data`, with the U/P flag where `user_ack` isn't 0, under
 * the next TID, which the answer gives. Class 0 ends with it; class 1 and 2 open an initiator record, which goes on until a
 * confirmation (class 1), a result that was answered (class 2) or an abort. The first Invoke of class 1 or 2 from a fresh table,
 * and the first after the TIDs have come back to 0, carries TIDnew: the peer then forgets the TID that it has cached.
 * Class 1 and 2 send at most (1 + RCR_MAX) times (4 + data_len) octets before the confirmation, the result or the abort, an Abort PDU
 * aside: WTP_COST tells how many by now, in the answer of each call for the record, and after the result stays as it is.
 * 1, 2; 3: peer; 4: more than 1,024 octets of data; 5: class over 2; 6: the next TID is in use; 7: no record is free. */
uint64_t wtp_request(uint8_t *table, size_t table_len, uint8_t *store, size_t store_len, uint8_t *out, size_t out_len,
                     uint64_t *answer, size_t answer_len, uint64_t now, uint64_t peer, uint64_t cls, uint64_t user_ack,
                     const uint8_t *data, size_t data_len);

/* Answers the Invoke or the result that was shown for this record (TR-Invoke.res, TR-Result.res), so that it is acknowledged.
 * Exit information goes with the last Ack, and so not with the Invoke of a class 2 transaction.
 * 1, 2; 3: peer; 4: more than 128 octets, or any for a live class 2 responder record; 8: no such record; 9: nothing to answer. */
uint64_t wtp_answer(uint8_t *table, size_t table_len, uint8_t *store, size_t store_len, uint8_t *out, size_t out_len,
                    uint64_t *answer, size_t answer_len, uint64_t now, uint64_t role, uint64_t peer, uint64_t tid,
                    const uint8_t *exit_information, size_t exit_information_len);

/* Gives the result of a class 2 transaction, once its Invoke was shown: sends a Result with `data`, which may be empty.
 * 1, 2; 3: peer; 4: more than 1,024 octets of data; 8: no such record; 9: not a class 2 responder record that waits for it. */
uint64_t wtp_result(uint8_t *table, size_t table_len, uint8_t *store, size_t store_len, uint8_t *out, size_t out_len,
                    uint64_t *answer, size_t answer_len, uint64_t now, uint64_t role, uint64_t peer, uint64_t tid,
                    const uint8_t *data, size_t data_len);

/* Aborts the transaction: sends an Abort of the user with `reason`, any octet, and frees the record.
 * 1, 2; 3: peer; 8: no such record; 9: the Invoke is still being verified and was not shown. */
uint64_t wtp_abort(uint8_t *table, size_t table_len, uint8_t *store, size_t store_len, uint8_t *out, size_t out_len,
                   uint64_t *answer, size_t answer_len, uint64_t now, uint64_t role, uint64_t peer, uint64_t tid,
                   uint8_t reason);

/* Takes one PDU that came from `peer`; a datagram is separated first (wtp_separate). A malformed PDU is an event and no refusal,
 * and what names no record and opens none is accepted and ignored. An Invoke with TIDnew that opens a record drops the TID that is
 * cached for `peer`, and is verified. The record keeps the identity of the first unknown item of the Invoke that opened it, or of the
 * Result that it took, and names it in an Error item of each hold-on and last Ack that it then sends. What is sent goes to `peer`.
 * 1, 2; 3: peer; 11: length outside 1 to 1,500. */
uint64_t wtp_receive(uint8_t *table, size_t table_len, uint8_t *store, size_t store_len, uint8_t *out, size_t out_len,
                     uint64_t *answer, size_t answer_len, uint64_t now, uint64_t peer, const uint8_t *pdu, size_t pdu_len);

/* Fires the due record with the earliest deadline, the lowest place on ties, or says that none is due: call again until then.
 * Where a record is due it does what wtp_deadline and then wtp_fire of the record that it told do, at the same time.
 * 1, 2. */
uint64_t wtp_timer(uint8_t *table, size_t table_len, uint8_t *store, size_t store_len, uint8_t *out, size_t out_len,
                   uint64_t *answer, size_t answer_len, uint64_t now);

/* Copies the data of an indication (k is 0 for the first, 1 for the second) to the start of `out` and leaves the rest of it.
 * `datagram` is the PDU that the call was lent, any octets after a call that was lent none; `store` and `answer` are as the call
 * left them. The data's length is the indication's word WTP_SHOWN_LENGTH; a source other than 0 is the store.
 * 1: fewer than 40 words, or `out` is shorter than the data; 11: k over 1, or data that isn't there whole. */
uint64_t wtp_data(const uint8_t *datagram, size_t datagram_len, const uint8_t *store, size_t store_len,
                  const uint64_t *answer, size_t answer_len, uint64_t k, uint8_t *out, size_t out_len);

/* Tells the earliest deadline of a live record and whose it is, the lowest place on ties, in the first 5 words of `due`, so that
 * the caller can sleep until then. It takes no time, stores none and changes nothing else; the deadline may lie in the past.
 * 1: not the size of a table, a table that isn't well formed, or fewer than 5 words. */
uint64_t wtp_deadline(const uint8_t *table, size_t table_len, uint64_t *due, size_t due_len);

/* Fires the record named, which must be due: its deadline is not after `now`. It need not be the earliest one.
 * 1, 2; 3: peer; 8: no such record; 9: it has no deadline, or a later one. */
uint64_t wtp_fire(uint8_t *table, size_t table_len, uint8_t *store, size_t store_len, uint8_t *out, size_t out_len,
                  uint64_t *answer, size_t answer_len, uint64_t now, uint64_t role, uint64_t peer, uint64_t tid);

/* Salvages a table that a brown-out may have damaged, so that it is well formed: zeroes each record that has a field out of range or
 * is free and not zero, and then, of live records that share role, peer and TID, all but the one of the lowest place. The first 97
 * words of `list` say which places it zeroed, and why. Everything else stays: the header, every other record, and the store, which
 * it isn't lent. Nothing is sent or shown for a record that is freed. A well-formed table comes back as it was, with an empty list.
 * 1: not the size of a table, or fewer than 97 words; 15: a field outside the records is out of range, whatever the records hold. */
uint64_t wtp_salvage(uint8_t *table, size_t table_len, uint64_t *list, size_t list_len);

/* Reads the PDU in `pdu` into the first 88 words of `fields`. Starts count from the PDU's first octet.
 * 1: fewer than 88 words; 11: length outside 1 to 1,500; then D2, D1, D5, D6, D3 or D4, D7. */
uint64_t wtp_read(const uint8_t *pdu, size_t pdu_len, uint64_t *fields, size_t fields_len);

/* Writes the PDU that `fields` says at the start of `out`; items, Nack list and user data lie in `bytes`, where their
 * starts count. Word 0 of the answer is the PDU's length, the other 39 are 0. What wtp_read wrote, handed on with the PDU as
 * `bytes`, gives the PDU with its reserved bits cleared; what it told of an unknown item is passed over, whatever it says.
 * 1: fewer than 88 words, 1,500 octets or 40 words of answer; then D2, 11, D1, D5, D6, D3 or D4, D7. */
uint64_t wtp_write(const uint64_t *fields, size_t fields_len, const uint8_t *bytes, size_t bytes_len,
                   uint8_t *out, size_t out_len, uint64_t *answer, size_t answer_len);

/* Separates a datagram: the words of `part` are start and length of its k-th PDU (0 is the first; both 0 where there is no
 * k-th) and how many PDUs there are.
 * 1: fewer than 3 words; 11: length outside 1 to 1,500, or the datagram can't be separated. */
uint64_t wtp_separate(const uint8_t *datagram, size_t datagram_len, uint64_t k, uint64_t *part, size_t part_len);

/* Separates a datagram and reads its k-th PDU (0 is the first) as wtp_read does: starts count from that PDU's first octet.
 * 1: fewer than 88 words; 11: length outside 1 to 1,500, a datagram that can't be separated, or no k-th PDU; then as wtp_read. */
uint64_t wtp_read_part(const uint8_t *datagram, size_t datagram_len, uint64_t k, uint64_t *fields, size_t fields_len);

/* Joins PDUs, which lie one after the other in `bytes` and have these lengths, to a datagram at the start of `out`.
 * Word 0 of the answer is the datagram's length, the other 39 are 0.
 * 1: fewer than 1,500 octets or 40 words of answer; 11: no PDU, a length outside 1 to 1,500, lengths that don't add up
 * to `bytes`, or a datagram over 1,500. */
uint64_t wtp_join(const uint8_t *bytes, size_t bytes_len, const uint64_t *lengths, size_t lengths_len,
                  uint8_t *out, size_t out_len, uint64_t *answer, size_t answer_len);

#ifdef __cplusplus
}
#endif

#endif
