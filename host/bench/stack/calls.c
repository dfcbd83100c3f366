#include <stdio.h>
#include <stdlib.h>
#include <string.h>

#include "calls.h"
#include "painted.h"

#define CALLS 29 /* at most */

struct lent lent;
int rows_shown;
static struct call ready;
static size_t deepest_yet;
static struct {
    const char *name;
    size_t most;
} reached[CALLS];

void set_ready(const char *name, void (*function)(void), const uint64_t *arguments, size_t size)
{
    ready = (struct call){ name, function, { 0 } };
    memcpy(ready.arguments, arguments, size);
}

#define LENT                                                                                   \
    AT(lent.table), wtp_table_bytes(lent.records), AT(lent.store), (lent.records * WTP_CELL), \
        AT(lent.out), sizeof lent.out, AT(lent.answer), lent.answer_len

void table_bytes(uint64_t records)
{
    READY(wtp_table_bytes, records);
}

void fresh(size_t table_len, const uint64_t *settings, size_t settings_len)
{
    READY(wtp_fresh, AT(lent.table), table_len, AT(settings), settings_len, 0);
}

void request(uint64_t now, uint64_t cls, uint64_t user_ack, const struct octets *data)
{
    READY(wtp_request, LENT, now, PEER, cls, user_ack, PART_OF(data));
}

void answer(uint64_t now, uint64_t role, uint64_t tid, const struct octets *exit_information)
{
    READY(wtp_answer, LENT, now, role, PEER, tid, PART_OF(exit_information));
}

void result(uint64_t now, uint64_t role, uint64_t tid, const struct octets *data)
{
    READY(wtp_result, LENT, now, role, PEER, tid, PART_OF(data));
}

void user_abort(uint64_t now, uint64_t role, uint64_t tid)
{
    READY(wtp_abort, LENT, now, role, PEER, tid, 0x55);
}

void receive(uint64_t now, uint64_t peer, const struct octets *pdu)
{
    READY(wtp_receive, LENT, now, peer, PART_OF(pdu));
}

void timer(uint64_t now)
{
    READY(wtp_timer, LENT, now);
}

void fire(uint64_t now, uint64_t tid)
{
    READY(wtp_fire, LENT, now, WTP_INITIATOR, PEER, tid);
}

void deadline(void)
{
    READY(wtp_deadline, AT(lent.table), wtp_table_bytes(lent.records), AT(lent.words), lent.words_len);
}

void salvage(void)
{
    READY(wtp_salvage, AT(lent.table), wtp_table_bytes(lent.records), AT(lent.list), lent.list_len);
}

void read_pdu(const struct octets *pdu)
{
    READY(wtp_read, PART_OF(pdu), AT(lent.words), lent.words_len);
}

void write_pdu(const uint64_t *fields, size_t fields_len, const struct octets *bytes)
{
    READY(wtp_write, AT(fields), fields_len, PART_OF(bytes), AT(lent.out), sizeof lent.out, AT(lent.answer), lent.answer_len);
}

void separate(const struct octets *datagram, uint64_t k)
{
    READY(wtp_separate, PART_OF(datagram), k, AT(lent.words), lent.words_len);
}

void join(const struct octets *bytes, const uint64_t *lengths, size_t lengths_len)
{
    READY(wtp_join, PART_OF(bytes), AT(lengths), lengths_len, AT(lent.out), sizeof lent.out, AT(lent.answer), lent.answer_len);
}

void read_part(const struct octets *datagram, uint64_t k)
{
    READY(wtp_read_part, PART_OF(datagram), k, AT(lent.words), lent.words_len);
}

void shown_data(const struct octets *datagram, uint64_t k)
{
    READY(wtp_data, PART_OF(datagram), AT(lent.store), sizeof lent.store, AT(lent.answer), lent.answer_len, k,
          AT(lent.out), sizeof lent.out);
}

void stop_with(const char *where, const char *what)
{
    fprintf(stderr, "%s: %s\n", where, what);
    exit(1);
}

void made(void)
{
    uint64_t number;
    depth_of(&ready, 0, &number);
    if (number != 0)
        stop_with(ready.name, "refused on the way to a row");
}

/* An octet that is written differs from one paint at least. */
static size_t depth(uint64_t *number)
{
    static struct lent before;
    uint64_t first;
    before = lent;
    size_t one = depth_of(&ready, 0xA5, &first);
    lent = before;
    size_t other = depth_of(&ready, 0x5A, number);
    if (first != *number)
        stop_with(ready.name, "answers the same call with two numbers");
    return one > other ? one : other;
}

const char *thousands(size_t number)
{
    static char text[32];
    if (number < 1000)
        snprintf(text, sizeof text, "%zu", number);
    else
        snprintf(text, sizeof text, "%zu,%03zu", number / 1000, number % 1000);
    return text;
}

static size_t *reached_by(const char *name)
{
    for (size_t k = 0; k < CALLS; k++) {
        if (reached[k].name == NULL)
            reached[k].name = name;
        if (strcmp(reached[k].name, name) == 0)
            return &reached[k].most;
    }
    stop_with(name, "one call too many");
    return NULL;
}

void one_of_many(void)
{
    uint64_t number;
    size_t one = depth(&number);
    deepest_yet = one > deepest_yet ? one : deepest_yet;
}

void deepest(const char *input)
{
    size_t *so_far = reached_by(ready.name);
    if (rows_shown)
        printf("| `%s` | %s | %s |\n", ready.name, input, thousands(deepest_yet));
    *so_far = deepest_yet > *so_far ? deepest_yet : *so_far;
    deepest_yet = 0;
}

void row(const char *input, uint64_t number)
{
    uint64_t answered;
    deepest_yet = depth(&answered);
    if (answered != number)
        stop_with(input, "another number than the row says");
    deepest(input);
}

size_t most(const char *name)
{
    return *reached_by(name);
}
