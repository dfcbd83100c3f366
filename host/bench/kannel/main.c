/* ns of Kannel's WTP code and of the proved library, or one of the two so many times for a program that counts instructions. */
#include <stdio.h>
#include <stdlib.h>
#include <string.h>
#include <time.h>

#include "side.h"

#define ROUNDS 21
#define BATCH 5000000.0  /* ns that a batch of the library takes, at least */
#define TRANSACTIONS 512 /* of a batch, at most: the TIDs of all rounds must differ */

static const struct side *const sides[2] = { &library, &kannel };

/* A packet number in the short form, then 32 octets of Info in the long form. */
static void add_items(struct octets *pdu)
{
    static const uint8_t heads[] = { 0x99, 0x07, 0x0C, 32 };
    memcpy(pdu->at + pdu->length, heads, sizeof heads);
    memset(pdu->at + pdu->length + sizeof heads, 0xAA, 32);
    pdu->length += sizeof heads + 32;
}

static void with_items(struct octets *pdu, const uint8_t *header, size_t length, size_t data)
{
    memcpy(pdu->at, header, length);
    pdu->length = length;
    add_items(pdu);
    for (size_t k = 0; k < data; k++)
        pdu->at[pdu->length++] = (uint8_t)k;
}

static void add_part(struct octets *datagram, const struct octets *pdu)
{
    datagram->at[datagram->length++] = (uint8_t)pdu->length;
    memcpy(datagram->at + datagram->length, pdu->at, pdu->length);
    datagram->length += pdu->length;
}

/* An Invoke, an Ack and an Abort, all of the initiator: what Kannel's responder may be sent. */
static void three_pdus(struct octets *datagram)
{
    struct octets pdu;
    datagram->at[0] = 0;
    datagram->length = 1;
    invoke(&pdu, 5);
    add_part(datagram, &pdu);
    last_ack(&pdu, 6);
    add_part(datagram, &pdu);
    user_abort(&pdu, 7);
    add_part(datagram, &pdu);
}

enum kind { READ, WRITE, SEPARATE, TRANSACT };

static const struct {
    const char *name;
    enum kind kind;
    char pdu;
    unsigned live;
} cases[] = {
    { "read an Invoke", READ, 'I', 0 },
    { "read a Result", READ, 'R', 0 },
    { "read an Ack", READ, 'A', 0 },
    { "write an Invoke", WRITE, 'I', 0 },
    { "write a Result", WRITE, 'R', 0 },
    { "write an Ack", WRITE, 'A', 0 },
    { "separate and read three PDUs", SEPARATE, '3', 0 },
    { "class 2 transaction, 1 record", TRANSACT, ' ', 0 },
    { "class 2 transaction, 8 records", TRANSACT, ' ', 7 },
    { "class 2 transaction, 48 records", TRANSACT, ' ', 47 },
};

#define CASES (sizeof cases / sizeof cases[0])

static void make_pdu(struct octets *pdu, char which)
{
    static const uint8_t invoke_header[] = { 0x8E, 0x00, 0x05, 0x02 }, result_header[] = { 0x96, 0x80, 0x05 };
    static const uint8_t ack_header[] = { 0x98, 0x00, 0x05 };
    if (which == 'I')
        with_items(pdu, invoke_header, sizeof invoke_header, DATA);
    else if (which == 'R')
        with_items(pdu, result_header, sizeof result_header, DATA);
    else if (which == 'A')
        with_items(pdu, ack_header, sizeof ack_header, 0);
    else
        three_pdus(pdu);
}

static void prepare(const struct side *side, size_t chosen)
{
    struct octets pdu;
    if (cases[chosen].kind == TRANSACT) {
        side->open(cases[chosen].live);
        return;
    }
    make_pdu(&pdu, cases[chosen].pdu);
    side->take(&pdu);
}

static void run(const struct side *side, size_t chosen, uint64_t times, struct octets *written)
{
    switch (cases[chosen].kind) {
    case READ:
        side->read(times);
        break;
    case WRITE:
        side->write(times, written);
        break;
    case SEPARATE:
        side->separate(times);
        break;
    case TRANSACT:
        side->transact(times, written);
    }
}

static double timed(const struct side *side, size_t chosen, uint64_t times)
{
    struct timespec begin, end;
    struct octets written;
    clock_gettime(CLOCK_MONOTONIC, &begin);
    run(side, chosen, times, &written);
    clock_gettime(CLOCK_MONOTONIC, &end);
    return (double)(end.tv_sec - begin.tv_sec) * 1e9 + (double)(end.tv_nsec - begin.tv_nsec);
}

static int in_order(const void *left, const void *right)
{
    double a = *(const double *)left, b = *(const double *)right;
    return (a > b) - (a < b);
}

/* Both sides write the same octets. */
static void compare(size_t chosen)
{
    struct octets written[2] = { { { 0 }, 0 }, { { 0 }, 0 } };
    for (int k = 0; k < 2; k++) {
        prepare(sides[k], chosen);
        run(sides[k], chosen, 1, &written[k]);
    }
    if (written[0].length != written[1].length || memcmp(written[0].at, written[1].at, written[0].length) != 0)
        stop_with(cases[chosen].name, "the two sides wrote different octets");
}

/* One line: the name, ns of the library and of Kannel (medians of the rounds) and the larger spread in percent, by tabs. */
static void clock_case(size_t chosen)
{
    double rounds[2][ROUNDS], spread = 0;
    uint64_t times = 1;
    compare(chosen);
    while ((cases[chosen].kind != TRANSACT || times < TRANSACTIONS) && timed(sides[0], chosen, times) < BATCH)
        times *= 2;
    timed(sides[1], chosen, times);
    for (int round = 0; round < ROUNDS; round++)
        for (int turn = 0; turn < 2; turn++) {
            int k = (round + turn) % 2;
            rounds[k][round] = timed(sides[k], chosen, times) / (double)times;
        }
    for (int k = 0; k < 2; k++) {
        qsort(rounds[k], ROUNDS, sizeof(double), in_order);
        double half = 50 * (rounds[k][ROUNDS * 3 / 4] - rounds[k][ROUNDS / 4]) / rounds[k][ROUNDS / 2];
        spread = half > spread ? half : spread;
    }
    printf("%s\t%.0f\t%.0f\t%.0f\n", cases[chosen].name, rounds[0][ROUNDS / 2], rounds[1][ROUNDS / 2], spread);
}

static void one(size_t chosen, const char *name, const char *times)
{
    struct octets written;
    const struct side *side = NULL;
    for (int k = 0; k < 2; k++)
        if (strcmp(name, sides[k]->name) == 0)
            side = sides[k];
    if (side == NULL)
        stop_with(name, "no such side: library or kannel");
    prepare(side, chosen);
    run(side, chosen, strtoull(times, NULL, 10), &written);
}

int main(int count, char **arguments)
{
    if (count == 2 && strcmp(arguments[1], "--list") == 0) {
        for (size_t k = 0; k < CASES; k++)
            puts(cases[k].name);
        return 0;
    }
    for (size_t k = 0; k < CASES; k++) {
        if (count == 3 && strcmp(arguments[1], "--clock") == 0 && strcmp(arguments[2], cases[k].name) == 0) {
            clock_case(k);
            return 0;
        }
        if (count == 5 && strcmp(arguments[1], "--one") == 0 && strcmp(arguments[2], cases[k].name) == 0) {
            one(k, arguments[3], arguments[4]);
            return 0;
        }
    }
    fputs("usage: kannel --list | --clock CASE | --one CASE library|kannel TIMES\n", stderr);
    return 2;
}
