/* What both sides of the comparison do. The two headers called wtp.h can't meet in one file: each side has its own. */
#ifndef SIDE_H
#define SIDE_H

#include <stddef.h>
#include <stdint.h>

#define DATA 100 /* octets of user data */
#define MOST 512 /* octets of a PDU or a datagram here, at most */
#define PARTS 3  /* PDUs of the datagram */

struct octets {
    uint8_t at[MOST];
    size_t length;
};

/* The PDUs of a transaction with this TID, from the initiator. */
void invoke(struct octets *pdu, unsigned tid);
void tidok(struct octets *pdu, unsigned tid);
void user_abort(struct octets *pdu, unsigned tid);
void last_ack(struct octets *pdu, unsigned tid);

/* A side: each call leaves the program where something is wrong. What `written` gets is compared between the sides. */
struct side {
    const char *name;
    void (*take)(const struct octets *pdu);                    /* the PDU or datagram for the calls that follow */
    void (*read)(uint64_t times);                              /* reads the PDU */
    void (*write)(uint64_t times, struct octets *written);     /* writes what was read from it */
    void (*separate)(uint64_t times);                          /* separates the datagram and reads its PDUs */
    void (*open)(unsigned live);                               /* a responder with so many open transactions, TIDs 1 and on */
    void (*transact)(uint64_t times, struct octets *written);  /* whole transactions of class 2, each with the next TID */
};

extern const struct side library, kannel;

/* Ends the program with one line. */
void stop_with(const char *side, const char *what);

#endif
