/* Rows of the Reliable Data Service. */
#include <string.h>

#include "frames.h"
#include "rows.h"

#define OWN 3
#define PEERS 5
#define PORTS 0x35      /* as we send them */
#define FROM_PEER 0x53  /* as the peer does */

#define BOOK AT(lent.book), rds_ports_bytes()
#define SENT AT(lent.frame), sizeof lent.frame, AT(lent.told), RDS_ANSWER

static struct octets application;
static uint64_t fields[RDS_FIELDS];

static void read_as(const struct octets *frame, size_t words)
{
    READY(rds_read, PART_OF(frame), 0, AT(lent.told), words);
}

static void taken_as(const struct octets *frame)
{
    READY(rds_take, PART_OF(frame), 0, AT(lent.told), RDS_PART);
}

/* What was read before, from the frame that it was read from. */
static void written_back(const struct octets *frame)
{
    memcpy(fields, lent.told, sizeof fields);
    READY(rds_write, AT(fields), RDS_FIELDS, PART_OF(frame), 0, SENT);
}

static void received(const struct octets *frame)
{
    READY(rds_receive, BOOK, SENT, PART_OF(frame));
}

static void reads(const char *input, const struct octets *frame)
{
    read_as(frame, RDS_FIELDS);
    row(input, RDS_OK);
}

static void ui(size_t count)
{
    nothing();
    octet(UI_FRAME);
    octets_of(count);
}

static struct octets *cut_parameters(void)
{
    struct octets *frame = parameters();
    frame->at[frame->length - 1] = 1;
    return frame;
}

static void reading(void)
{
    ui(1500);
    reads("UI with 1,500 octets", octets_of(0));
    reads("Reserve with an Application ID of 272 octets", managed(U_0, 1, PORTS));
    reads("Notify with 15 entries", notify());
    reads("SET_PARAMETERS with 760 items", parameters());
    read_as(cut_parameters(), RDS_FIELDS);
    row("refused, 16: the last of 760 items cut short", RDS_MALFORMED);
    notify();
    read_as(octet(0), RDS_FIELDS);
    row("refused, 16: Notify with an octet left", RDS_MALFORMED);
    read_as(nothing(), RDS_FIELDS - 1);
    row("refused, 1: 99 words", RDS_WRONG_SIZE);
    for (uint64_t k = 0; k < HOSTILE; k++) {
        read_as(hostile_frame(k), RDS_FIELDS);
        one_of_many();
    }
    deepest("the deepest of 1,000 hostile frames");
}

static void taking(void)
{
    ui(1500);
    taken_as(octets_of(0));
    row("UI with 1,500 octets", RDS_OK);
    taken_as(notify());
    row("Notify with 15 entries", RDS_OK);
    for (uint64_t k = 0; k < HOSTILE; k++) {
        taken_as(hostile_frame(k));
        one_of_many();
    }
    deepest("the deepest of 1,000 hostile frames");
}

static void putting(void)
{
    nothing();
    octets_of(1500);
    READY(rds_put, PART_OF(octets_of(0)), 1, OWN, PEERS, 7, SENT);
    row("1,500 octets between ports", RDS_OK);
    READY(rds_put, PART_OF(octets_of(1)), 0, 0, 0, 7, SENT);
    row("refused, 11: 1,501 octets", RDS_WRONG_LENGTH);
}

static void writes(const char *input, const struct octets *frame)
{
    read_as(frame, RDS_FIELDS);
    made();
    written_back(frame);
    row(input, RDS_OK);
}

static void writing(void)
{
    ui(1500);
    writes("UI with 1,500 octets", octets_of(0));
    writes("Reserve with an Application ID of 272 octets", managed(U_0, 1, PORTS));
    writes("Notify with 15 entries", notify());
    writes("SET_PARAMETERS with 760 items", parameters());
    memset(lent.told, 0xFF, sizeof lent.told);
    written_back(octets_of(0));
    row("refused, 16: every word 2^64 - 1", RDS_MALFORMED);
}

static void fresh_book(void)
{
    READY(rds_ports_fresh, BOOK, 0, 7);
    made();
}

static void reserved(uint64_t with_format)
{
    READY(rds_reserve, BOOK, SENT, OWN, PEERS, with_format, PART_OF(&application));
}

/* A book whose port is reserved. */
static void open_book(void)
{
    fresh_book();
    reserved(0);
    made();
    received(answered(U_0, 1, 0));
    made();
}

static void asking(void)
{
    READY(rds_ports_bytes, 0);
    row("the size", rds_ports_bytes());
    READY(rds_ports_fresh, BOOK, 0, 7);
    row("formats 7", RDS_OK);
    reserved(1);
    row("with formats, an Application ID of 272 octets", RDS_OK);
    reserved(1);
    row("refused, 9: a command is outstanding", RDS_NOT_NOW);
    READY(rds_again, BOOK, SENT);
    row("with formats, an Application ID of 272 octets", RDS_OK);
    READY(rds_port, BOOK, 0, SENT);
    row("the outstanding command", RDS_OK);
    READY(rds_abandon, BOOK);
    row("a Reserve", RDS_OK);
    open_book();
    READY(rds_port, BOOK, OWN, SENT);
    row("a reserved port", RDS_OK);
    READY(rds_release, BOOK, SENT, OWN);
    row("an Application ID of 272 octets", RDS_OK);
    READY(rds_release, BOOK, SENT, 15);
    row("refused, 8: a free port", RDS_NOTHING_KEPT);
    lent.book[rds_ports_bytes() - 1] = 1;
    reserved(0);
    row("refused, 1: a book that isn't well formed", RDS_WRONG_SIZE);
}

static void receives(const char *input, const struct octets *frame)
{
    received(frame);
    row(input, RDS_OK);
}

static void receiving(void)
{
    fresh_book();
    receives("Reserve: Success (R5)", managed(U_1, 1, FROM_PEER));
    receives("the same again (R1)", managed(U_1, 1, FROM_PEER));
    receives("Reserve with another pair: Port not free (R2)", managed(U_1, 1, 0x63));
    receives("Release: Success (R7)", managed(U_1, 2, FROM_PEER));
    open_book();
    READY(rds_release, BOOK, SENT, OWN);
    made();
    receives("response to our Release (R12)", answered(U_0, 2, 0));
    fresh_book();
    reserved(0);
    made();
    receives("response to our Reserve (R10)", answered(U_0, 1, 0));
    struct octets *frame = notify();
    frame->at[0] = U_1;
    receives("Notify with 15 entries: ERROR (R9)", frame);
    frame = parameters();
    frame->at[0] = U_1;
    receives("SET_PARAMETERS with 760 items: ERROR (R9)", frame);
    ui(1500);
    receives("UI with 1,500 octets (R15)", octets_of(0));
    received(nothing());
    row("refused, 16: no octet", RDS_MALFORMED);
    for (uint64_t k = 0; k < HOSTILE; k++) {
        open_book();
        received(hostile_frame(k));
        one_of_many();
    }
    deepest("the deepest of 1,000 hostile frames");
}

void rds_rows(void)
{
    nothing();
    application = *longest_application();
    if (rds_ports_bytes() > sizeof lent.book)
        stop_with("rds_ports_bytes", "the book is larger than the place for it");
    reading();
    taking();
    putting();
    writing();
    asking();
    receiving();
}
