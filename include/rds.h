/* Frames of the Reliable Data Service (3GPP TS 24.250), proved: the C interface.
 *
 * A slice is a pointer and then a count of its elements. A pointer is never null, also where the count is 0, and the
 * buffers lent to one call don't overlap. That is all a caller owes: every value is otherwise allowed. A flag is off
 * with 0 and on with any other value; `from_network`: the network sent the frame (off: the UE).
 * The result is 0 where the call was accepted, else a refusal, the lowest number that applies. A call that was refused
 * changes no lent byte and no lent word.
 *
 * The modem's driver hands each frame to rds_take first. RDS_MALFORMED: the frame is dropped, and no call of wtp.h is
 * made. RDS_UI: its datagram goes to the calls of wtp.h. RDS_U: the frame goes to rds_receive. RDS_I and RDS_S: dropped.
 */
#ifndef RDS_H
#define RDS_H

#include <stddef.h>
#include <stdint.h>

#ifdef __cplusplus
extern "C" {
#endif

/* Results. */
#define RDS_OK 0
#define RDS_WRONG_SIZE 1    /* too few words or too little output; a book of the wrong size or not well formed */
#define RDS_NOTHING_KEPT 8  /* rds_release: no reserved port; rds_again, rds_abandon: no command is outstanding */
#define RDS_NOT_NOW 9       /* a command is outstanding; rds_reserve: a reserved port, or a format asked for and none supported */
#define RDS_WRONG_VALUE 10  /* a number, a port or formats out of range */
#define RDS_WRONG_LENGTH 11 /* a datagram outside 1 to 1,500 octets; an Application ID that isn't 17 + its octet 16 long */
#define RDS_MALFORMED 16    /* the frame is malformed; rds_write: no frame reads as these words */

/* Sizes, in elements. An accepted call writes just the first so many words. */
#define RDS_FIELDS 100  /* words of a frame, at least */
#define RDS_PART 8      /* words of a part, at least */
#define RDS_ANSWER 16   /* words of an answer, at least */
#define RDS_OUTPUT 1523 /* octets of the output of rds_write and rds_put, at least */
#define RDS_SENDING 277 /* octets of the output of the book's calls, at least */
#define RDS_APP 272     /* octets of an Application ID, at most */

/* Kinds of frame. */
#define RDS_I 1
#define RDS_S 2
#define RDS_UI 3
#define RDS_U 4

/* M of a U frame. */
#define RDS_ERROR 1
#define RDS_DISCONNECT 4
#define RDS_ACCEPT 6
#define RDS_SET_ACK_MODE 7
#define RDS_MANAGE_PORT 10
#define RDS_SET_PARAMETERS 11

/* Words of a frame. Those that the frame hasn't are 0, and so are 23 and 99; starts count from the frame's first octet,
 * in rds_write from the first of `bytes`. */
enum {
    RDS_KIND = 0,
    RDS_ADS,
    RDS_SOURCE, /* the ports of the header */
    RDS_DESTINATION,
    RDS_A, /* I, S */
    RDS_NS, /* I */
    RDS_NR, /* I, S */
    RDS_R, /* I, S */
    RDS_NU, /* UI */
    RDS_M, /* U */
    RDS_RESPONSE, /* U: 0 command, 1 response */
    RDS_START, /* the information of I, UI, SET_ACK_MODE, ACCEPT, SET_PARAMETERS */
    RDS_LENGTH,
    RDS_ACTION, /* MANAGE_PORT */
    RDS_STATUS, /* its responses 1, 2, 5 */
    RDS_BODY_SOURCE, /* its commands 1, 2, 5 */
    RDS_BODY_DESTINATION,
    RDS_APP_START,
    RDS_APP_LENGTH,
    RDS_FORMAT, /* its command and response 5 */
    RDS_BITMAP_THERE, /* Query commands and lists */
    RDS_BITMAP,
    RDS_ENTRIES, /* lists */
    RDS_FIRST_ENTRY = 24, /* entry k at 24 + 5k: Source Port, Destination Port, start and length of its Application ID, format */
    RDS_ENTRY = 5
};

/* Words of a part; the last is 0. */
enum {
    RDS_PART_KIND = 0,
    RDS_PART_START, /* the datagram of I and UI, else 0 */
    RDS_PART_LENGTH,
    RDS_PART_ADS,
    RDS_PART_SOURCE,
    RDS_PART_DESTINATION,
    RDS_PART_NUMBER /* N(S) of I, N(U) of UI, else 0 */
};

/* Words of the answer of rds_put, and the first of them alone of rds_write; the others are 0. */
enum {
    RDS_SENT = 0, /* the length of the frame */
    RDS_NEXT = 12 /* the number of the next frame */
};

/* Words of the answer of rds_receive; of rds_port 0 is the length of the Application ID, and 2, 4, 5, 6 and 11 are what is
 * kept; rds_reserve, rds_release and rds_again have RDS_SENT alone. All others are 0. */
enum {
    RDS_EVENT = 1, /* 0 nothing, 1 the peer's command was answered, 2 ours was, 3 ERROR was sent */
    RDS_TOLD_ACTION,
    RDS_TOLD_STATUS, /* 256 for an ERROR response */
    RDS_TOLD_OWN,
    RDS_TOLD_PEERS,
    RDS_TOLD_FORMAT,
    RDS_CHANGED, /* 1 where a port was reserved, written again or freed */
    RDS_TOLD_APP_START, /* in the frame */
    RDS_TOLD_APP_LENGTH,
    RDS_TOLD_M,
    RDS_WHOM /* rds_port: 1 our command was answered Success, 2 the peer's was */
};

/* Reads a frame into RDS_FIELDS words. */
uint64_t rds_read(const uint8_t *frame, size_t frame_count, uint64_t from_network, uint64_t *fields, size_t fields_count);

/* Judges a frame whole, as rds_read does, and tells where its datagram lies, its ports and its number. */
uint64_t rds_take(const uint8_t *frame, size_t frame_count, uint64_t from_network, uint64_t *part, size_t part_count);

/* Puts a datagram into a UI frame at the start of the output, with a ports octet where `ports` is on. */
uint64_t rds_put(const uint8_t *datagram, size_t datagram_count, uint64_t ports, uint64_t source, uint64_t destination,
                 uint64_t number, uint8_t *out, size_t out_count, uint64_t *answer, size_t answer_count);

/* Writes the frame that RDS_FIELDS words say at the start of the output; its information and Application IDs are parts of
 * `bytes`. What rds_read read is written from its words and its frame, with the spare bits cleared. */
uint64_t rds_write(const uint64_t *fields, size_t fields_count, const uint8_t *bytes, size_t bytes_count,
                   uint64_t from_network, uint8_t *out, size_t out_count, uint64_t *answer, size_t answer_count);

/* The octets of a port book. */
uint64_t rds_ports_bytes(void);

/* Makes a book of rds_ports_bytes() octets: our side (`network`: off for the UE), and the formats that we support, 0 to 7. */
uint64_t rds_ports_fresh(uint8_t *book, size_t book_count, uint64_t network, uint64_t formats);

/* Asks the peer for its port `peers` to go with our port `own`: the Reserve command is kept, and lies in the output. */
uint64_t rds_reserve(uint8_t *book, size_t book_count, uint8_t *out, size_t out_count, uint64_t *answer, size_t answer_count,
                     uint64_t own, uint64_t peers, uint64_t with_format, const uint8_t *app, size_t app_count);

/* Asks the peer to release what our port `own` is reserved with: the Release command is kept, and lies in the output. */
uint64_t rds_release(uint8_t *book, size_t book_count, uint8_t *out, size_t out_count, uint64_t *answer, size_t answer_count,
                     uint64_t own);

/* The outstanding command once more, the same octets. */
uint64_t rds_again(const uint8_t *book, size_t book_count, uint8_t *out, size_t out_count, uint64_t *answer, size_t answer_count);

/* Gives the outstanding command up; no port changes. */
uint64_t rds_abandon(uint8_t *book, size_t book_count);

/* Takes a frame from the peer: what is to be sent lies in the output. */
uint64_t rds_receive(uint8_t *book, size_t book_count, uint8_t *out, size_t out_count, uint64_t *answer, size_t answer_count,
                     const uint8_t *frame, size_t frame_count);

/* Tells what is kept of a port, 1 to 15, or with 0 of the outstanding command; its Application ID lies in the output. */
uint64_t rds_port(const uint8_t *book, size_t book_count, uint64_t port, uint8_t *out, size_t out_count, uint64_t *answer,
                  size_t answer_count);

#ifdef __cplusplus
}
#endif

#endif
