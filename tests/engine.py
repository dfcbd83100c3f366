"""An engine read from document 01 ("Numbers given back", "TIDs", "Events"), from document 02 as far as it has landed (L3, L2, L6, L4, L11, L12),
from the C interface's words and from docs/TABLE.md, and not from the definitions: a second opinion on what each call gives. It notes in `reached`
each row, test and refusal that a call meets.
"""

BOUND = 10 ** 12
LONGEST = 86400000
HEADER, RECORD, CELL = 624, 176, 1024
LIMIT, UNKNOWN, COST, SPARE, EXIT = 20, 24, 25, 29, 48
WAITING_LIMIT, MODES, TIDNEW_DUE, CACHE = 92, 96, 97, 112
INITIATOR, RESPONDER = 0, 1
ROLES = ["initiator", "responder"]
STATES = ["Free", "IResultWait1", "IResultWait2", "IResultRespWait", "IWaitTimeout", "RTidokWait1", "RTidokWait2",
          "RInvokeRespWait1", "RInvokeRespWait2", "RResultWait", "RResultRespWait", "RWaitTimeout"]
CLASS = {"IResultWait1": 1, "RTidokWait1": 1, "RInvokeRespWait1": 1, "RWaitTimeout": 1}
# 02, L12: why a place is salvaged
OUT_OF_RANGE, NOT_ZERO, SAME_NAME = 1, 2, 3
reached = set()


def number(octets):
    return int.from_bytes(octets, "little")


# ---- the table, docs/TABLE.md

class Record:
    """A live record, or a free one."""

    def __init__(self, w):
        self.state, self.peer, self.tid, self.rcr, self.aec = STATES[w[0]], w[1], number(w[2:4]), w[4], w[5]
        self.up, self.held, self.tidok_sent, self.hold_on_sent, self.tidnew = (w[6] >> k & 1 for k in range(5))
        self.deadline, self.length, self.exit, self.past_exit = number(w[8:16]), number(w[16:20]), bytes(w[EXIT:EXIT + w[7]]), bytes(w[EXIT:RECORD])
        self.limit, self.unknown, self.cost = number(w[LIMIT:UNKNOWN]), w[UNKNOWN], number(w[COST:SPARE])

    def octets(self):
        marks = self.up + 2 * self.held + 4 * self.tidok_sent + 8 * self.hold_on_sent + 16 * self.tidnew
        w = bytes([STATES.index(self.state), self.peer]) + self.tid.to_bytes(2, "little") + bytes([self.rcr, self.aec, marks, len(self.exit)])
        w += self.deadline.to_bytes(8, "little") + self.length.to_bytes(4, "little") + self.limit.to_bytes(4, "little")
        w += bytes([self.unknown]) + self.cost.to_bytes(4, "little") + bytes(EXIT - SPARE)
        return w + self.exit + self.past_exit[len(self.exit):]

    def live(self):
        return self.state != "Free"

    def role(self):
        return INITIATOR if self.state[0] == "I" else RESPONDER

    def cls(self):
        return CLASS.get(self.state, 2)

    def free(self):
        self.__init__(bytes(RECORD))


class Table:
    """A table as its octets say; rows[0] and rows[1] are the intervals of class 1 and 2."""

    def __init__(self, t):
        self.clock, self.gen, self.rcr_max, self.aec_max = number(t[0:8]), number(t[8:10]), t[10], t[11]
        x = [number(t[at:at + 4]) for at in range(12, 92, 4)]
        self.a, self.w, self.rows = x[0], x[1], [x[2:11], x[11:20]]
        self.limit, self.modes, self.tidnew_due = number(t[WAITING_LIMIT:MODES]), t[MODES], t[TIDNEW_DUE]
        self.last = [number(t[at:at + 2]) - 1 for at in range(CACHE, HEADER, 2)]
        self.records = [Record(t[at:at + RECORD]) for at in range(HEADER, len(t), RECORD)]

    def octets(self):
        t = self.clock.to_bytes(8, "little") + self.gen.to_bytes(2, "little") + bytes([self.rcr_max, self.aec_max])
        t += b"".join(x.to_bytes(4, "little") for x in [self.a, self.w] + self.rows[0] + self.rows[1])
        t += self.limit.to_bytes(4, "little") + bytes([self.modes, self.tidnew_due]) + bytes(CACHE - TIDNEW_DUE - 1)
        t += b"".join((x + 1).to_bytes(2, "little") for x in self.last)
        return t + b"".join(r.octets() for r in self.records)

    def named(self, role, peer, tid):
        return next((r for r in self.records if r.live() and (r.role(), r.peer, r.tid) == (role, peer, tid)), None)

    def lowest_free(self):
        return next((r for r in self.records if not r.live()), None)


def limit_ok(modes, limit):
    """02, L6: the mode is off and there is no limit, or it is on with one of 1 to 86,400,000; no other mode is built."""
    return (modes, limit) == (0, 0) or modes == 1 and 1 <= limit <= LONGEST


def cost_bound(rcr_max):
    """02, L11: an Invoke of 4 + 1,024 octets, and RCR_MAX PDUs after it, none longer."""
    return (1 + rcr_max) * 1028


def is_known(identity):
    """8.4, table 25: Error, Info, Option, PSN, SDU Boundary, Frame Boundary."""
    return identity < 6


def header_ok(t):
    """01: all fields outside the records in range."""
    if number(t[0:8]) > BOUND or number(t[8:10]) > 32767 or t[10] > 8 or t[11] > 8 or t[TIDNEW_DUE] > 1 or any(t[TIDNEW_DUE + 1:CACHE]):
        return False
    if not all(1 <= number(t[at:at + 4]) <= LONGEST for at in range(12, 92, 4)) or not limit_ok(t[MODES], number(t[WAITING_LIMIT:MODES])):
        return False
    return not any(number(t[at:at + 2]) > 32768 for at in range(CACHE, HEADER, 2))


def record_wrong(w, t):
    """01: what is wrong with a record by itself: a free one isn't zero, or one that isn't free has a field out of range."""
    if w[0] == 0:
        return NOT_ZERO if any(w) else None
    if not fields_ok(w, t):
        return OUT_OF_RANGE
    return None


def fields_ok(w, t):
    """01: all fields of a record that isn't free in range, RCR and AEC by the table's own maxima."""
    if w[0] > 11 or number(w[2:4]) > 32767 or w[4] > t[10] or w[5] > t[11] or w[6] > (31 if w[0] <= 4 else 15) or w[7] > 128 or any(w[SPARE:EXIT]):
        return False
    if w[UNKNOWN] and (is_known(w[UNKNOWN]) or w[UNKNOWN] > 15):
        return False
    if number(w[8:16]) > BOUND + LONGEST or number(w[16:20]) > CELL or number(w[LIMIT:UNKNOWN]) > LONGEST:
        return False
    return number(w[COST:SPARE]) <= (cost_bound(t[10]) if w[0] <= 4 else 0)


def octets_of(t, place):
    return t[HEADER + RECORD * place:HEADER + RECORD * (place + 1)]


def name_of(w):
    """Role, peer and TID of a live record that has its fields in range."""
    return w[0] <= 4, w[1], number(w[2:4])


def well_formed(t):
    """01: all fields in range, free records zero, no two live records with the same role, peer and TID."""
    records = [octets_of(t, k) for k in range((len(t) - HEADER) // RECORD)]
    names = [name_of(w) for w in records if w[0]]
    return header_ok(t) and not any(record_wrong(w, t) for w in records) and len(set(names)) == len(names)


# ---- PDUs, 01 "Bytes on the air"

class Pdu:
    """A PDU that is well formed: its fields, the place of its user data and of its first Info item, and identity and place of its first
    item that isn't known."""

    def __init__(self, s):
        self.typ, flags, self.tid = s[0] >> 3 & 15, s[0] & 7, s[1] << 8 & 32512 | s[2]
        self.ttr, self.rid, self.tve = flags >> 1 & 1, flags & 1, flags >> 2 & 1
        self.abort_type = flags
        self.fourth = s[3] if len(s) > 3 else 0
        self.info = self.user = None
        self.unknown = (0, 0)

    def kind(self):
        """The event's name, each PDU and flag that a row may ask for apart."""
        rid = " RID" if self.rid else ""
        if self.typ == 2:
            return "Result" + ("" if self.ttr else " cut") + rid
        if self.typ == 3:
            return ("Tve" if self.tve else "Ack") + rid
        return {1: "Invoke" + rid, 4: "Abort", 5: "Segmented Invoke", 6: "Segmented Result", 7: "Nack"}[self.typ]


def parse(s):
    """The PDU, or None where it is malformed."""
    fixed = {1: 4, 2: 3, 3: 3, 4: 4, 5: 4, 6: 4, 7: 4}.get(s[0] >> 3 & 15)
    if fixed is None or len(s) < fixed:
        return None
    p = Pdu(s)
    at = fixed + (p.fourth if p.typ == 7 else 0)
    if at > len(s) or p.typ == 1 and p.fourth & 3 == 3 or p.typ == 4 and p.abort_type > 1:
        return None
    more, left = s[0] >> 7, 16
    while more:
        if left == 0 or at >= len(s) or s[at] & 4 and at + 1 >= len(s):
            return None
        start, length = (at + 2, s[at + 1]) if s[at] & 4 else (at + 1, s[at] & 3)
        if start + length > len(s):
            return None
        identity = s[at] >> 3 & 15
        if identity == 1 and p.info is None:
            p.info = (start, length)
        if not is_known(identity) and p.unknown == (0, 0):
            p.unknown = (identity, at)
        more, at, left = s[at] >> 7, start + length, left - 1
    if p.typ in (3, 4, 7) and at < len(s):
        return None
    p.user = (at, len(s) - at)
    return p


def pdu(first, role, tid, rest=b""):
    """Octets towards the other end: the top bit is 0 from an initiator, 1 from a responder."""
    return bytes([first, role << 7 | tid >> 8, tid & 255]) + bytes(rest)


def exit_item(x):
    return b"" if not x else bytes([8 + len(x)]) + x if len(x) <= 3 else bytes([12, len(x)]) + x


def error_item(identity, more):
    """02, L4: 8.4.2 in the short form, error code 1 in the high half and the identity in the low; CON where another item follows."""
    return bytes([0x81 if more else 0x01, 0x10 + identity]) if identity else b""


def plain_ack(r, rid, exit_info):
    """A hold-on or last Ack: the Error item where the record keeps an identity, then the exit information where there is some."""
    form = "long exit" if len(exit_info) > 3 else "short exit" if exit_info else "no exit"
    reached.add(("Ack again" if rid else "Ack", r.state, form + (", unknown item" if r.unknown else "")))
    items = error_item(r.unknown, exit_info) + exit_item(exit_info)
    return pdu((0x98 if items else 0x18) + rid, r.role(), r.tid, items)


def invoke_pdu(tid, cls, up, tidnew, rid, octets):
    return pdu(0x0E + rid, INITIATOR, tid, bytes([32 * tidnew + 16 * up + cls]) + octets)


# ---- one accepted call

EVENT_NAME = {"Invoke": "Invoke", "Invoke RID": "InvokeRid", "Result cut": "ResultCut", "Result cut RID": "ResultCutRid", "Result": "Result",
                 "Result RID": "ResultRid", "Ack": "PlainAck", "Ack RID": "PlainAck", "Tve": "TidAck", "Tve RID": "TidAckRid", "Abort": "ReceivedAbort",
                 "Segmented Invoke": "Segmented", "Segmented Result": "Segmented", "Nack": "Segmented", "malformed": "MalformedPdu",
                 "answer": "UserAnswer", "result": "UserResult", "abort": "UserAbort", "timer": "Timer", "request": "Request"}
NO_DATA = (0, 0, 0)


class Call:
    """What an accepted call does: PDU, indications, the row it meets, and the records it changes."""

    def __init__(self, end, table, time):
        self.end, self.t, self.time = end, table, time
        self.sent, self.shown, self.tid, self.fired, self.met, self.refusal, self.changed = b"", [], None, None, "", 0, []
        self.by_name, self.unknown, self.cost, self.payer = False, (0, 0), (0, 0), None

    def meet(self, state, event, row, condition=""):
        self.met = " {%s %s %s}" % (state, EVENT_NAME[event], row)
        reached.add((state, event, condition))
        if self.by_name:
            reached.add((state, "timer, by name", condition))
        reached.add(("row", row if state != "Free" else "opening " + row, ""))

    def cell(self, r):
        return CELL * self.t.records.index(r)

    def message(self, r):
        return bytes(self.end.store[self.cell(r):self.cell(r) + r.length])

    def keep(self, r, octets):
        at = self.cell(r)
        self.end.store[at:at + len(octets)] = octets
        r.length = len(octets)

    def show(self, kind, r, place=NO_DATA, cls=0, up=0, abort_type=0, reason=0):
        self.shown.append((kind, r.role(), r.peer, r.tid, cls, up, abort_type, reason) + place)

    def start(self, r, interval):
        r.deadline, r.limit = self.time + interval, 0

    def start_none(self, r, row):
        """01: no timer, or it stops. 02, L6: with the mode on the limit is then the deadline."""
        reached.add(("no timer", row, "limit" if self.t.modes else "no limit"))
        r.deadline, r.limit = self.time + self.t.limit if self.t.modes else 0, self.t.limit

    def take_identity(self, r, p, row):
        """02, L4: the record keeps the identity of the PDU's first unknown item, 0 where it has none."""
        reached.add(("identity", row, "unknown item" if p.unknown[0] else "none, and one before" if r.unknown else "none"))
        r.unknown = p.unknown[0]

    def tell_cost(self, tid, octets, ended):
        """02, L11: what the initiator's record that the call concerns has cost, or had when it ended."""
        self.payer, self.cost = tid, (octets, ended)

    def pay(self, r):
        """02, L11: the Invoke or TIDok that was sent adds its length to what the record has cost; the sum stops at its bound."""
        bound = cost_bound(self.t.rcr_max)
        reached.add(("cost", "stops at the bound" if r.cost + len(self.sent) > bound else "the bound itself" if r.cost + len(self.sent) == bound else "below the bound", ""))
        r.cost = min(r.cost + len(self.sent), bound)

    def provider_abort(self, r, reason):
        self.sent = pdu(0x20, r.role(), r.tid, [reason])
        self.show("abort", r, reason=reason)
        r.free()

    def give_up(self, r):
        self.show("abort", r, reason=8)
        r.free()


def silent_user(c, r, event):
    """Timer with user acknowledgement: the AEC rule, the same for both ends."""
    if r.aec < c.t.aec_max:
        c.meet(r.state, event, "UserAwaited", "U/P, AEC < AEC_MAX")
        r.aec += 1
        c.start(r, c.t.a)
    else:
        c.meet(r.state, event, "UserSilent", "U/P, AEC = AEC_MAX")
        c.provider_abort(r, 8)


def send_last_ack(c, r, state, exit_info):
    r.exit = exit_info
    r.state = state
    c.sent = plain_ack(r, 0, r.exit)
    c.start(r, c.t.w)


def i_result_wait(c, r, event, p, given):
    interval = c.t.rows[r.cls() - 1]
    if event == "timer" and r.cls() == 2 and r.held and r.limit:
        c.meet(r.state, event, "HeldOnWaitEnds", "HoldOn, limit")
        return c.give_up(r)
    if event in ("Tve", "Tve RID", "timer"):
        if r.rcr == c.t.rcr_max:
            c.meet(r.state, event, "GivenUp" if event == "timer" else "Ignored", "RCR = RCR_MAX")
            return c.give_up(r) if event == "timer" else None
        c.meet(r.state, event, "Resent" if event == "timer" else "TidokSent", "RCR < RCR_MAX, TIDok " + ("sent" if r.tidok_sent else "not sent"))
        if event == "timer" and not r.tidok_sent:
            reached.add(("Invoke again", "TIDnew" if r.tidnew else "no TIDnew", "due" if c.t.tidnew_due else "not due"))
            c.sent = invoke_pdu(r.tid, r.cls(), r.up, r.tidnew, 1, c.message(r))
        else:
            c.sent = pdu(0x1C + r.tidok_sent, INITIATOR, r.tid)
            r.tidok_sent = 1
        c.pay(r)
        r.rcr += 1
        return c.start(r, interval[r.rcr])
    if event in ("Ack", "Ack RID"):
        info = (0,) + p.info if p.info else NO_DATA
        if r.cls() == 1:
            c.meet(r.state, event, "Confirmed")
            c.show("confirm", r, info)
            return r.free()
        if r.held:
            return c.meet(r.state, event, "Ignored", "HoldOn")
        c.meet(r.state, event, "HeldOn", "not HoldOn")
        c.show("confirm", r, info)
        r.held = 1
        return c.start_none(r, "HeldOn")
    if event.startswith("Result") and r.cls() == 2:
        if not p.ttr:
            c.meet(r.state, event, "ResultUnsupported")
            return c.provider_abort(r, 4)
        c.meet(r.state, event, "ResultTaken" if r.held else "ResultConfirms", "HoldOn" if r.held else "not HoldOn")
        if not r.held:
            c.show("confirm", r)
        c.show("result", r, (0,) + p.user)
        c.take_identity(r, p, "ResultTaken" if r.held else "ResultConfirms")
        r.aec, r.state = 0, "IResultRespWait"
        return c.start(r, c.t.a)
    return no_row(c, r, event)


def i_result_resp_wait(c, r, event, p, given):
    if event == "answer":
        c.meet(r.state, event, "ResultAnswered", "exit information" if given else "")
        return send_last_ack(c, r, "IWaitTimeout", given)
    if event == "timer" and not r.up:
        c.meet(r.state, event, "ResultAcked", "no U/P")
        return send_last_ack(c, r, "IWaitTimeout", b"")
    if event == "timer":
        return silent_user(c, r, event)
    return no_row(c, r, event)


def i_wait_timeout(c, r, event, p, given):
    if event in ("Result RID", "Result cut RID"):
        c.meet(r.state, event, "ResultSeenAgain", "exit information" if r.exit else "")
        c.sent = plain_ack(r, 1, r.exit)
        return None
    if event == "timer":
        c.meet(r.state, event, "TimeoutEnds")
        return r.free()
    return no_row(c, r, event)


def r_tidok_wait(c, r, event, p, given):
    if event in ("Tve", "Tve RID"):
        cached = c.t.last[r.peer] >= 0
        c.meet(r.state, event, "Verified%d" % r.cls(), "cached" if cached else "none cached")
        c.show("invoke", r, (1, c.cell(r), r.length), r.cls(), r.up)
        if not cached:
            c.t.last[r.peer] = r.tid
        r.aec, r.state = 0, "RInvokeRespWait%d" % r.cls()
        return c.start(r, c.t.a)
    if event == "Invoke RID":
        c.meet(r.state, event, "TidveRepeated")
        c.sent = pdu(0x1D, RESPONDER, r.tid)
        return None
    if event == "timer" and r.limit:
        c.meet(r.state, event, "TidokWaitEnds", "limit")
        return r.free()
    return no_row(c, r, event)


def send_result(c, r, event, octets):
    c.meet(r.state, event, "ResultSent")
    c.keep(r, octets)
    c.sent = pdu(0x16, RESPONDER, r.tid, octets)
    r.rcr, r.state = 0, "RResultRespWait"
    c.start(r, c.t.rows[1][0])


def hold_on(c, r, event, condition=""):
    c.meet(r.state, event, "HoldOnSent", condition)
    c.start_none(r, "HoldOnSent in " + r.state)
    r.hold_on_sent, r.state = 1, "RResultWait"
    c.sent = plain_ack(r, 0, b"")


def r_invoke_resp_wait(c, r, event, p, given):
    if event == "answer" and r.cls() == 1:
        c.meet(r.state, event, "InvokeAnswered", "exit information" if given else "")
        return send_last_ack(c, r, "RWaitTimeout", given)
    if event == "answer":
        c.meet(r.state, event, "UserWorks")
        r.state = "RResultWait"
        return c.start(r, c.t.a)
    if event == "result" and r.cls() == 2:
        return send_result(c, r, event, given)
    if event == "timer" and r.up:
        return silent_user(c, r, event)
    if event == "timer" and r.cls() == 1:
        c.meet(r.state, event, "InvokeAcked", "no U/P")
        return send_last_ack(c, r, "RWaitTimeout", b"")
    if event == "timer":
        return hold_on(c, r, event, "no U/P")
    return no_row(c, r, event)


def r_result_wait(c, r, event, p, given):
    if event == "result":
        return send_result(c, r, event, given)
    if event == "timer" and r.hold_on_sent and r.limit:
        c.meet(r.state, event, "ResultWaitEnds", "hold-on sent, limit")
        return c.provider_abort(r, 8)
    if event == "timer":
        return hold_on(c, r, event)
    if event == "Invoke RID":
        c.meet(r.state, event, "HoldOnRepeated" if r.hold_on_sent else "Ignored", "hold-on sent" if r.hold_on_sent else "hold-on not sent")
        c.sent = plain_ack(r, 1, b"") if r.hold_on_sent else b""
        return None
    return no_row(c, r, event)


def r_result_resp_wait(c, r, event, p, given):
    if event in ("Ack", "Ack RID"):
        c.meet(r.state, event, "Confirmed")
        c.show("confirm", r, (0,) + p.info if p.info else NO_DATA)
        return r.free()
    if event == "timer" and r.rcr < c.t.rcr_max:
        c.meet(r.state, event, "ResultResent", "RCR < RCR_MAX")
        c.sent = pdu(0x17, RESPONDER, r.tid, c.message(r))
        r.rcr += 1
        return c.start(r, c.t.rows[1][r.rcr])
    if event == "timer":
        c.meet(r.state, event, "GivenUp", "RCR = RCR_MAX")
        return c.give_up(r)
    return no_row(c, r, event)


def r_wait_timeout(c, r, event, p, given):
    if event in ("Invoke RID", "Tve RID"):
        # the second is the row of 9.6 that document 01's bullets don't name: docs/DECISIONS.md, 19
        c.meet(r.state, event, "InvokeSeenAgain" if event == "Invoke RID" else "TidokSeenAgain", "exit information" if r.exit else "")
        c.sent = plain_ack(r, 1, r.exit)
        return None
    if event == "timer":
        c.meet(r.state, event, "TimeoutEnds")
        return r.free()
    return no_row(c, r, event)


def no_row(c, r, event):
    """A primitive without a row gets 9, anything else is ignored."""
    c.meet(r.state, event, "NotAllowed" if event in ("answer", "result") else "Ignored")
    c.refusal = 9 if event in ("answer", "result") else 0


def turn(c, r, event, p=None, given=b""):
    """An event at a live record, what it does with a limit in force, and what the record has cost, whatever the event did."""
    state, limit, initiator, tid, cost = r.state, r.limit, r.role() == INITIATOR, r.tid, r.cost
    act(c, r, event, p, given)
    if limit and not c.refusal:
        reached.add(("limit in force", state, "freed" if not r.live() else "stays" if r.limit else "a timer again"))
    if initiator and not c.refusal:
        c.tell_cost(tid, r.cost if r.live() else cost, 0 if r.live() else 1)
        reached.add(("cost told", state, event if r.live() else "ended by " + event))


def act(c, r, event, p, given):
    """The abort row of every state, then the state's own rows."""
    unseen = r.state.startswith("RTidokWait")
    if event == "abort":
        c.meet(r.state, event, "NotAllowed" if unseen else "UserAborts")
        if unseen:
            c.refusal = 9
            return
        c.sent = pdu(0x21, r.role(), r.tid, given)
        r.free()
    elif event == "Abort":
        c.meet(r.state, event, "PeerAbortsUnseen" if unseen else "PeerAborts", "user" if p.abort_type else "provider")
        if not unseen:
            c.show("abort", r, abort_type=p.abort_type, reason=p.fourth)
        r.free()
    elif event == "malformed":
        c.meet(r.state, event, "MalformedUnseen" if unseen else "Malformed")
        c.sent = pdu(0x20, r.role(), r.tid, [1])
        if not unseen:
            c.show("abort", r, reason=1)
        r.free()
    else:
        rows = {"IResultWait": i_result_wait, "IResultRespWait": i_result_resp_wait, "IWaitTimeout": i_wait_timeout, "RTidokWait": r_tidok_wait,
                "RInvokeRespWait": r_invoke_resp_wait, "RResultWait": r_result_wait, "RResultRespWait": r_result_resp_wait, "RWaitTimeout": r_wait_timeout}
        rows[r.state.rstrip("12")](c, r, event, p, given)


class Nowhere:
    """What an indication without a record concerns."""

    def __init__(self, peer, tid):
        self.peer, self.tid = peer, tid

    def role(self):
        return RESPONDER


def first_invoke(c, peer, p):
    """An Invoke without a live record, well formed, top bit 0: the tests in order, the last decides."""
    cls, up, tidnew = p.fourth & 3, p.fourth >> 4 & 1, p.fourth >> 5 & 1
    start, length = p.user

    def met(row, test):
        c.meet("Free", p.kind(), row)
        reached.add(("first Invoke, class %d" % cls, test, "TIDnew" if tidnew else ""))

    for reason, test, row, fails in ((6, "a", "WrongVersion", p.fourth >> 6), (4, "b", "Unsupported", not p.ttr), (7, "c", "TooLong", length > 1024)):
        if fails:
            met("Ignored" if cls == 0 else row, test)
            c.sent = b"" if cls == 0 else pdu(0x20, RESPONDER, p.tid, [reason])
            return
    r = c.t.lowest_free()
    if cls == 0:
        met("Shown0", "d" if r else "d, full table")
        c.show("invoke", Nowhere(peer, p.tid), (0, start, length), 0, up)
        return
    if r is None:
        return met("Ignored", "e")
    last = c.t.last[peer]
    valid = last >= 0 and 1 <= (p.tid - last) % 32768 <= 16383
    r.peer, r.tid, r.up = peer, p.tid, up
    if valid and not tidnew:
        met("Valid%d" % cls, "f")
        c.take_identity(r, p, "Valid%d" % cls)
        r.state, c.t.last[peer] = "RInvokeRespWait%d" % cls, p.tid
        c.show("invoke", r, (0, start, length), cls, up)
        c.start(r, c.t.a)
    else:
        # 02, L2: with TIDnew whatever the distance, and the peer's cached TID is dropped
        row = "Restarted%d" if tidnew else "ToVerify%d"
        met(row % cls, "g, none cached" if last < 0 else "g, d = 0" if last == p.tid else "g, d 1 to 16,383" if valid else "g, d over 16,383")
        c.t.last[peer] = -1 if tidnew else last
        c.take_identity(r, p, row % cls)
        r.state = "RTidokWait%d" % cls
        c.keep(r, c.lent[start:start + length])
        c.start_none(r, row % cls)
        c.sent = pdu(0x1C, RESPONDER, p.tid)


def arrive(c, peer, s):
    """A PDU: whom it names, then its row."""
    c.lent = s
    if len(s) < 3:
        reached.add(("dispatch", "%d octets" % len(s), ""))
        c.met = " {Nobody}"
        return
    typ, top, tid = s[0] >> 3 & 15, s[1] >> 7, s[1] << 8 & 32512 | s[2]
    p = parse(s)
    if p:
        c.unknown = p.unknown
        reached.add(("told", p.kind(), "unknown item" if p.unknown[0] else "none"))
    if (typ, top) in ((1, 1), (2, 0)):
        reached.add(("dispatch", "Invoke with top bit 1" if typ == 1 else "Result with top bit 0", "well formed" if p else "malformed"))
        met = any(c.t.named(role, peer, tid) for role in (INITIATOR, RESPONDER))
        reached.add(("dispatch", "ignored direction", "live record" if met else "no record"))
        c.met = " {Nobody}"
        return
    r = c.t.named(INITIATOR if top else RESPONDER, peer, tid)
    event = p.kind() if p else "malformed"
    if r:
        return turn(c, r, event, p)
    if p is None:
        c.meet("Free", event, "Malformed" if typ == 1 else "Ignored", "Invoke" if typ == 1 else "TIDve" if s[0] >> 2 & 31 == 7 and top else "other")
        c.sent = pdu(0x20, RESPONDER, tid, [1]) if typ == 1 else b""
    elif event in ("Tve", "Tve RID") and top:
        c.meet("Free", event, "UnknownTidve", "TIDve")
        c.sent = pdu(0x20, INITIATOR, tid, [2])
    elif typ == 1:
        first_invoke(c, peer, p)
    else:
        c.meet("Free", event, "Ignored", "top bit %d" % top)


# ---- the calls: refusals lowest first, then the event

class End:
    """What one end's user lends to its calls, and the PDU that it sent last."""

    def __init__(self):
        self.records, self.octets, self.store, self.last = 1, bytearray(8464), bytearray(49 * CELL), b""


ANSWER = 40
NORMAL = [0, 0, 1100, ANSWER + 1, 32]
CAPACITY = [HEADER + 49 * RECORD, 49 * CELL, 1200, 48, 40]
ends = [End(), End()]
lend = [None] * 5
settings = []


def table_bytes(records):
    return HEADER + RECORD * records if 1 <= records <= 48 else 0


def lent(end, k):
    """How much of table, store, output, answer or settings is lent."""
    normal = table_bytes(end.records) if k == 0 else CELL * end.records if k == 1 else NORMAL[k]
    return min(normal if lend[k] is None else lend[k], CAPACITY[k])


def table_size_wrong(end):
    n, rest = divmod(lent(end, 0) - HEADER, RECORD)
    return rest != 0 or not 1 <= n <= 48


def sizes_wrong(end):
    n = (lent(end, 0) - HEADER) // RECORD
    return table_size_wrong(end) or lent(end, 1) != CELL * n or lent(end, 2) < 1028 or lent(end, 3) < ANSWER


def changed_records(before, after):
    """Place, state before and state after of each record whose octets differ."""
    places = enumerate(range(HEADER, len(before), RECORD))
    return [(k, state_name(before[at]), state_name(after[at])) for k, at in places if before[at:at + RECORD] != after[at:at + RECORD]]


def state_name(octet):
    return STATES[octet] if octet < len(STATES) else "state %d" % octet


def call(name, end, time, tests, event):
    """One call. `tests` are the conditions of its other numbers on the table as it is; `event` is what it does if none holds."""
    if sizes_wrong(end) or not well_formed(end.octets[:lent(end, 0)]):
        reached.add((name, 1, "size" if sizes_wrong(end) else "form"))
        return 1, None
    t = Table(end.octets[:lent(end, 0)])
    for n, condition in [(2, time < t.clock or time > BOUND)] + tests(t):
        if condition:
            reached.add((name, n, ""))
            return n, None
    c = Call(end, t, time)
    t.clock = time
    event(c)
    if c.refusal:
        reached.add((name, c.refusal, ""))
        return c.refusal, c
    c.changed = changed_records(end.octets[:lent(end, 0)], t.octets())
    end.octets[:lent(end, 0)] = t.octets()
    if c.sent:
        end.last = c.sent
    reached.add((name, 0, ""))
    return 0, c


def request(end, time, peer, cls, up, octets):
    def tests(t):
        return [(3, peer > 255), (4, len(octets) > 1024), (5, cls > 2), (6, any(r.live() and r.role() == INITIATOR and r.tid == t.gen for r in t.records)),
                (7, cls > 0 and t.lowest_free() is None)]

    def event(c):
        c.tid, tidnew = c.t.gen, c.t.tidnew_due if cls else 0
        c.t.gen = (c.t.gen + 1) % 32768
        c.meet("Free", "request", "Requested%d" % cls)
        reached.add(("request, class %d" % cls, "due" if c.t.tidnew_due else "not due", "GenTID to 0" if c.t.gen == 0 else ""))
        c.sent = invoke_pdu(c.tid, cls, up, tidnew, 0, octets)
        if cls:
            r = c.t.lowest_free()
            r.state, r.peer, r.tid, r.up, r.tidnew = "IResultWait%d" % cls, peer, c.tid, up, tidnew
            c.keep(r, octets)
            c.pay(r)
            c.tell_cost(r.tid, r.cost, 0)
            c.start(r, c.t.rows[cls - 1][0])
            c.t.tidnew_due = 0
        # 02, L2: due from the request that brings GenTID back to 0, whatever its class, and after its own Invoke
        c.t.tidnew_due = 1 if c.t.gen == 0 else c.t.tidnew_due
    return call("request", end, time, tests, event)


def primitive(name, end, time, role, peer, tid, given, too_long):
    def tests(t):
        r = t.named(role, peer, tid)
        wrong_place = name == "answer" and given and r is not None and role == RESPONDER and r.cls() == 2
        if wrong_place and peer < 256:
            reached.add(("answer", 4, "class 2 responder in " + r.state))
        return [(3, peer > 255), (4, len(given) > too_long or wrong_place), (8, r is None)]
    return call(name, end, time, tests, lambda c: turn(c, c.t.named(role, peer, tid), name, None, given))


def receive(end, time, peer, s):
    return call("receive", end, time, lambda t: [(3, peer > 255), (11, not 1 <= len(s) <= 1500)], lambda c: arrive(c, peer, s))


def timer(end, time):
    def event(c):
        due = [(r.deadline, k) for k, r in enumerate(c.t.records) if r.live() and 0 < r.deadline <= time]
        if not due:
            reached.add(("timer", "none due", ""))
            c.met = " {NoneDue}"
            return
        reached.add(("timer", "fired", "a tie" if sum(d == min(due)[0] for d, _ in due) > 1 else "later ones due" if len(due) > 1 else "alone"))
        r = c.t.records[min(due)[1]]
        c.fired = (r.role(), r.peer, r.tid)
        turn(c, r, "timer")
    return call("timer", end, time, lambda t: [], event)


def deadline(end):
    """02, L3: tells the earliest deadline of a live record, due or not, and its record, the lowest place on ties, or that there is none.
    It takes no time and changes nothing; number 1 is its only refusal."""
    wrong = "size" if table_size_wrong(end) else "words" if lent(end, 3) < 5 else "form" if not well_formed(end.octets[:lent(end, 0)]) else ""
    if wrong:
        reached.add(("deadline", 1, wrong))
        return 1, None
    t = Table(end.octets[:lent(end, 0)])
    with_one = [(r.deadline, k) for k, r in enumerate(t.records) if r.live() and r.deadline]
    if not with_one:
        reached.add(("deadline", "none", "live records" if any(r.live() for r in t.records) else "no live record"))
        return 0, None
    at, place = min(with_one)
    reached.add(("deadline", "told", "a tie" if sum(d == at for d, _ in with_one) > 1 else "later ones" if len(with_one) > 1 else "alone"))
    reached.add(("deadline", "told", "past the bound" if at > BOUND else "past" if at <= t.clock else "to come"))
    r = t.records[place]
    return 0, (at, r.role(), r.peer, r.tid)


def fire(end, time, role, peer, tid):
    """02, L3: fires the record named, which must be due and need not be the earliest."""
    def tests(t):
        r = t.named(role, peer, tid)
        return [(3, peer > 255), (8, r is None), (9, r is None or not 0 < r.deadline <= time)]

    def event(c):
        r = c.t.named(role, peer, tid)
        due = min((r.deadline, k) for k, r in enumerate(c.t.records) if r.live() and 0 < r.deadline)
        reached.add(("fire", "fired", "the earliest" if c.t.records[due[1]] is r else "a later one"))
        c.fired, c.by_name = (role, peer, tid), True
        turn(c, r, "timer")
    n, c = call("fire", end, time, tests, event)
    if n == 9:
        r = Table(end.octets[:lent(end, 0)]).named(role, peer, tid)
        reached.add(("fire", 9, "a later deadline" if r.deadline else "no deadline"))
    return n, c


def salvage(end, words):
    """02, L12: frees each record that has a field out of range, zeroes free ones that aren't zero, and then, where live ones share role, peer and
    TID, keeps the lowest place. It is lent a table and a list of so many words; it gives each place that it changed with its first reason."""
    t = end.octets[:lent(end, 0)]
    wrong = "size" if table_size_wrong(end) else "words" if words < 97 else ""
    if wrong:
        reached.add(("salvage", 1, wrong))
        return 1, [], []
    records = [octets_of(t, k) for k in range((len(t) - HEADER) // RECORD)]
    reasons = {k: record_wrong(w, t) for k, w in enumerate(records) if record_wrong(w, t)}
    if not header_ok(t):
        reached.add(("salvage", 15, "records damaged too" if reasons else "records sound"))
        return 15, [], []
    kept = set()
    for k, w in enumerate(records):
        if w[0] and k not in reasons:
            if name_of(w) in kept:
                reasons[k] = SAME_NAME
            kept.add(name_of(w))
    reached.update(("salvage", 0, reason) for reason in reasons.values() or ["nothing"])
    for k in reasons:
        end.octets[HEADER + RECORD * k:HEADER + RECORD * (k + 1)] = bytes(RECORD)
    return 0, sorted(reasons.items()), changed_records(t, end.octets[:len(t)])


def make_fresh(end, first):
    words = (settings + [0] * 8)[:lent(end, 4)]
    n = (lent(end, 0) - HEADER) // RECORD
    if table_size_wrong(end):
        reached.add(("fresh", 1, ""))
        return 1
    good = (len(words) == 32 and words[0] <= 8 and words[1] <= 8 and all(1 <= x <= LONGEST for x in words[2:22]) and limit_ok(words[22], words[23])
            and not any(words[24:]) and first <= 32767)
    reached.add(("fresh", 0 if good else 10, ""))
    if not good:
        return 10
    t = Table(bytes(table_bytes(n)))
    t.tidnew_due, t.gen, (t.rcr_max, t.aec_max, t.a, t.w), t.rows = 1, first, words[:4], [words[4:13], words[13:22]]
    t.modes, t.limit = words[22:24]
    end.octets[:lent(end, 0)] = t.octets()
    return 0
