/* Kannel's side: the public functions of its libwap and gwlib, as Debian builds them. */
#include "gwlib/gwlib.h"
#include "wap/wap.h"
#include "wap/wtp.h"
#include "wap/wtp_pdu.h"
#include "wap/wtp_tid.h"

#include "side.h"

/* No timer ends while it is measured: Kannel's intervals are multiples of this many seconds. */
#define TICK 100000

static Octstr *taken;
static WAPEvent *datagram;

static void start(void)
{
    if (gwlib_initialized())
        return;
    gwlib_init();
    log_set_output_level(GW_PANIC);
}

/* An arriving datagram, as Kannel's datagram layer hands it on. */
static WAPEvent *arriving(const struct octets *pdu)
{
    static Octstr *address;
    WAPEvent *event = wap_event_create(T_DUnitdata_Ind);
    if (address == NULL)
        address = octstr_create("127.0.0.1");
    event->u.T_DUnitdata_Ind.addr_tuple = wap_addr_tuple_create(address, 9201, address, 9201);
    event->u.T_DUnitdata_Ind.user_data = octstr_create_from_data((const char *)pdu->at, (long)pdu->length);
    return event;
}

static void take(const struct octets *pdu)
{
    start();
    taken = octstr_create_from_data((const char *)pdu->at, (long)pdu->length);
    datagram = arriving(pdu);
}

static void read_pdu(uint64_t times)
{
    while (times-- > 0) {
        WTP_PDU *pdu = wtp_pdu_unpack(taken);
        if (pdu == NULL)
            stop_with("kannel", "the PDU isn't unpacked");
        wtp_pdu_destroy(pdu);
    }
}

static void keep(struct octets *written, Octstr *octets)
{
    written->length = (size_t)octstr_len(octets);
    octstr_get_many_chars((char *)written->at, octets, 0, octstr_len(octets));
}

static void write_pdu(uint64_t times, struct octets *written)
{
    WTP_PDU *pdu = wtp_pdu_unpack(taken);
    Octstr *packed = NULL;
    while (times-- > 0) {
        octstr_destroy(packed);
        packed = wtp_pdu_pack(pdu);
    }
    keep(written, packed);
}

static void separate(uint64_t times)
{
    while (times-- > 0) {
        List *events = wtp_unpack_wdp_datagram(datagram);
        if (gwlist_len(events) != PARTS)
            stop_with("kannel", "not every PDU of the datagram is unpacked");
        gwlist_destroy(events, wap_event_destroy_item);
    }
}

/* The responder's thread calls back with what it sends and what it shows. There the next event is put into its queue at once,
 * so that the thread doesn't sleep between the first Invoke and the last confirmation. */
static struct octets asked, acked, *result;
static unsigned next_tid;
static uint64_t left;
static Semaphore *done;

static void deliver(const struct octets *pdu)
{
    WAPEvent *event = arriving(pdu), *unpacked;
    List *events = wtp_unpack_wdp_datagram(event);
    wap_event_destroy(event);
    while ((unpacked = gwlist_extract_first(events)) != NULL)
        wtp_resp_dispatch_event(unpacked);
    gwlist_destroy(events, NULL);
}

static void deliver_next(void)
{
    asked.at[1] = acked.at[1] = (uint8_t)(next_tid >> 8);
    asked.at[2] = acked.at[2] = (uint8_t)next_tid;
    next_tid++;
    deliver(&asked);
}

/* Only Results are sent. */
static void on_sent(WAPEvent *event)
{
    keep(result, event->u.T_DUnitdata_Req.user_data);
    wap_event_destroy(event);
    deliver(&acked);
}

static void answer(WAPEvent *shown)
{
    WAPEvent *event = wap_event_create(TR_Result_Req);
    event->u.TR_Result_Req.user_data = octstr_duplicate(shown->u.TR_Invoke_Ind.user_data);
    event->u.TR_Result_Req.handle = shown->u.TR_Invoke_Ind.handle;
    wtp_resp_dispatch_event(event);
}

/* The responder doesn't call the session layer that it is given, but this function by its name: here it stands for that layer,
 * and Kannel's own isn't linked. */
void wsp_session_dispatch_event(WAPEvent *event)
{
    if (left == 0)
        semaphore_up(done);
    else if (event->type == TR_Invoke_Ind)
        answer(event);
    else if (event->type != TR_Result_Cnf)
        stop_with("kannel", "neither an Invoke nor a confirmation is shown");
    else if (--left == 0)
        semaphore_up(done);
    else
        deliver_next();
    wap_event_destroy(event);
}

/* Shows class 1, which isn't measured. */
void wsp_push_client_dispatch_event(WAPEvent *event)
{
    wap_event_destroy(event);
    stop_with("kannel", "an event of class 1 is shown");
}

static void deliver_and_wait(const struct octets *pdu)
{
    deliver(pdu);
    semaphore_down(done);
}

static void open_responder(unsigned live)
{
    struct octets pdu;
    start();
    done = semaphore_create(0);
    wtp_tid_cache_init();
    wtp_resp_init(on_sent, wsp_session_dispatch_event, wsp_push_client_dispatch_event, TICK);
    invoke(&pdu, 0);
    deliver_and_wait(&pdu); /* shown at once: Kannel doesn't verify the first TID of a peer */
    user_abort(&pdu, 0);
    deliver_and_wait(&pdu);
    for (next_tid = 1; next_tid <= live; next_tid++) {
        invoke(&pdu, next_tid);
        deliver_and_wait(&pdu);
    }
    invoke(&asked, next_tid);
    last_ack(&acked, next_tid);
}

static void transact(uint64_t times, struct octets *written)
{
    if (times == 0)
        return;
    left = times;
    result = written;
    deliver_next();
    semaphore_down(done);
}

const struct side kannel = { "kannel", take, read_pdu, write_pdu, separate, open_responder, transact };
