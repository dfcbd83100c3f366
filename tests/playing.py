"""The commands of a scenario, and the lines that the player must print for them: what the engine read from document 01 gives, in words."""
from engine import (NO_DATA, ROLES, Table, deadline, ends, fire, lend, make_fresh, primitive, reached, receive, request, salvage, settings, table_bytes,
                    timer)
from notation import text_of


# ---- what the player prints

def outcome(n):
    return ": ok" if n == 0 else ": refused %d" % n


def shown_text(end, s, words):
    kind, role, peer, tid = words[:4]
    source, start, length = words[8:]
    text = "; %s %s %d/%d" % (kind, ROLES[role], peer, tid)
    text += "".join(" %s %d" % kv for kv in zip(("class", "up", "type", "reason"), words[4:8]) if kv[1])
    if (source, start, length) == NO_DATA:
        return text + " no data"
    text += " %s %d+%d" % (("datagram", "store")[source], start, length)
    return text + (" " + text_of((end.store if source else s)[start:start + length]) if length else "")


def changed_text(changed):
    """The records that a call changed: the place of each, and its state before and after."""
    return " {%s}" % ", ".join("%d: %s -> %s" % record for record in changed) if changed else ""


def answer_text(end, c, s=b"", name=""):
    text = ""
    if c.sent:
        text += "; sent " + text_of(c.sent)
    if c.tid is not None:
        text += "; tid %d" % c.tid
    if name in ("timer", "fire"):
        text += "; fired %s %d/%d" % (ROLES[c.fired[0]], c.fired[1], c.fired[2]) if c.fired else "; none due"
    text += "".join(shown_text(end, s, w) for w in c.shown)
    text += "; unknown %d at %d" % c.unknown if c.unknown != (0, 0) else ""
    return text + ("; cost %d" % c.cost[0] + ", ended" * c.cost[1] if c.cost != (0, 0) else "")


def look_text(end):
    t = Table(end.octets[:table_bytes(end.records)])
    text = ": clock %d, next TID %d" % (t.clock, t.gen) + ", TIDnew due" * t.tidnew_due + (", waiting limit %d" % t.limit if t.modes else "")
    text += "".join(", last of %d is %d" % (p, x) for p, x in enumerate(t.last) if x >= 0)
    for k, r in enumerate(t.records):
        if r.live():
            text += "; record %d %s %d/%d RCR %d AEC %d due %d%s length %d" % (k, r.state, r.peer, r.tid, r.rcr, r.aec, r.deadline, " limit %d" % r.limit if r.limit else "", r.length)
            text += "".join(" " + mark for mark, on in (("user-ack", r.up), ("HoldOn", r.held), ("TIDok-sent", r.tidok_sent), ("hold-on-sent", r.hold_on_sent), ("TIDnew", r.tidnew)) if on)
            text += (" unknown %d" % r.unknown if r.unknown else "") + (" exit " + text_of(r.exit) if r.exit else "") + (" cost %d" % r.cost if r.cost else "")
    return text


# ---- the commands of a scenario

lines, expected, titles = [], [], []
R, G = 0, 1  # the reader's end and the gateway's
histories = [{}, {}]  # of each end, for the TID of each request: the octets that it sent, and whether it is over


def recount(history, c):
    """02, L11, as the document says it: the cost told is the sum of the lengths that the request sent before its result, class 1 confirmation
    or abort, the Abort PDU aside. A request whose record was made up has no history."""
    if c.tid is not None:
        history[c.tid] = (0, False)
    if c.payer not in history:
        return
    octets, over = history[c.payer]
    if not over and c.sent[:1] not in (b"\x20", b"\x21"):
        octets += len(c.sent)
    over = over or c.cost[1] or any(words[0] in ("result", "abort") for words in c.shown)
    history[c.payer] = (octets, over)
    assert c.cost[0] == octets, "the history of TID %d has %d octets and not %d" % (c.payer, octets, c.cost[0])


def add(line, shown, has=None, meant=None):
    """A line and what it gives. `has` must be in what it gives, or in what is meant where that says more."""
    lines.append(line)
    expected.append(line + shown)
    for part in [has] if isinstance(has, str) else has or []:
        assert part in (meant or shown), "%r isn't in %r" % (part, line + (meant or shown))


def add_call(line, end, result, has, s=b"", name=""):
    """A call. The player can't see rows, so that it prints the record that changed; `has` may name the row that was met instead."""
    n, c = result
    if n == 0:
        recount(histories[ends.index(end)], c)
    given = answer_text(end, c, s, name) if n == 0 else ""
    assert c is None or len(c.changed) <= 1, "%r changes more than one record" % line
    add(line, outcome(n) + (changed_text(c.changed) if c else "") + given, has, outcome(n) + (c.met if c else "") + given)


def title(text):
    titles.append(text)
    add("# %d. %s" % (len(titles), text), "")


def octets(*parts):
    return b"".join(bytes.fromhex(p) if isinstance(p, str) else bytes(p) for p in parts)


def sets(**words):
    """Settings: RCR_MAX 4, AEC_MAX 2, A 1,000, W 5,000, R 2,000 and 3,000 growing by 100, and what is named."""
    settings[:] = [4, 2, 1000, 5000] + [2000 + 100 * k for k in range(9)] + [3000 + 100 * k for k in range(9)] + [0] * 10
    for k, v in words.items():
        settings[int(k[1:])] = v
    add("set" + "".join(" %s=%d" % (k[1:], v) for k, v in words.items()), "")


def fresh(e, records=2, first=7, has=": ok"):
    ends[e].records = records
    histories[e].clear()
    add("fresh %d %d %d" % (e, records, first), outcome(make_fresh(ends[e], first)), has)


def lends(*sizes):
    """How much is lent from now on of table, store, output, answer and settings; nothing: what is right."""
    lend[:] = list(sizes) or [None] * 5
    add("lend" + "".join(" %d" % x for x in sizes), "")


def put(e, at, value):
    was = ends[e].octets[at]
    ends[e].octets[at] = value
    histories[e].clear()
    add("put %d %d %d" % (e, at, value), ": was %d" % was)


def copy(e, place, to):
    """Copies the octets of one record over those of another."""
    histories[e].clear()
    ends[e].octets[record_at(to):record_at(to + 1)] = ends[e].octets[record_at(place):record_at(place + 1)]
    add("copy %d %d %d" % (e, place, to), "")


def fill(e, place, value):
    """Makes every octet of a record this one."""
    histories[e].clear()
    ends[e].octets[record_at(place):record_at(place + 1)] = bytes([value]) * (record_at(1) - record_at(0))
    add("fill %d %d %d" % (e, place, value), "")


def record_at(place):
    return table_bytes(1) + (table_bytes(2) - table_bytes(1)) * (place - 1)


def req(e, time, peer, cls, up=0, d="", has=None):
    d = octets(d)
    add_call("req %d %d %d %d %d /%s" % (e, time, peer, cls, up, text_of(d)), ends[e], request(ends[e], time, peer, cls, up, d), has)


def ans(e, time, role, peer, tid, x="", has=None):
    x = octets(x)
    add_call("ans %d %d %d %d %d /%s" % (e, time, role, peer, tid, text_of(x)), ends[e], primitive("answer", ends[e], time, role, peer, tid, x, 128), has)


def res(e, time, role, peer, tid, d="", has=None):
    d = octets(d)
    add_call("res %d %d %d %d %d /%s" % (e, time, role, peer, tid, text_of(d)), ends[e], primitive("result", ends[e], time, role, peer, tid, d, 1024), has)


def abo(e, time, role, peer, tid, reason, has=None):
    add_call("abo %d %d %d %d %d %d" % (e, time, role, peer, tid, reason), ends[e], primitive("abort", ends[e], time, role, peer, tid, bytes([reason]), 1), has)


def rcv(e, time, peer, *parts, has=None):
    s = octets(*[p.replace(" ", "") if isinstance(p, str) else p for p in parts])
    add_call("rcv %d %d %d /%s" % (e, time, peer, text_of(s)), ends[e], receive(ends[e], time, peer, s), has, s)


def get(e, time, peer, has=None):
    """The PDU that the other end sent last."""
    s = ends[1 - e].last
    add_call("get %d %d %d" % (e, time, peer), ends[e], receive(ends[e], time, peer, s), has, s)


def tim(e, time, has=None):
    add_call("tim %d %d" % (e, time), ends[e], timer(ends[e], time), has, name="timer")


def due(e, has=None):
    n, told = deadline(ends[e])
    add("due %d" % e, outcome(n) + ("" if n else "; %d %s %d/%d" % (told[0], ROLES[told[1]], told[2], told[3]) if told else "; none"), has)


def fir(e, time, role, peer, tid, has=None):
    add_call("fir %d %d %d %d %d" % (e, time, role, peer, tid), ends[e], fire(ends[e], time, role, peer, tid), has, name="fire")


def sal(e, words=98, has=None):
    """Salvages the table; so many words are lent for the list. What it lists are the records that it changed."""
    n, listed, changed = salvage(ends[e], words)
    assert [place for place, _ in listed] == [place for place, _, _ in changed]
    told = "; %d salvaged" % len(listed) + "".join(", place %d reason %d" % entry for entry in listed)
    add("sal %d %d" % (e, words), outcome(n) + changed_text(changed) + ("" if n else told), has)


def fires(e, role, has=None):
    """Fires peer 5, TID 7 at its own deadline, which is told before."""
    at = Table(ends[e].octets[:table_bytes(ends[e].records)]).named(role, 5, 7).deadline
    due(e, has="; %d %s 5/7" % (at, ROLES[role])), fir(e, at - 1, role, 5, 7, has="refused 9"), fir(e, at, role, 5, 7, has=has)


def look(e, has=None):
    add("look %d" % e, look_text(ends[e]), has)


def size(records, has):
    add("bytes %d" % records, ": %d" % table_bytes(records), has)


def pair(records=2, first=7, **words):
    sets(**words)
    fresh(R, records, first)
    fresh(G, records, first)


def edge(text):
    """The edge case of the refusals that the line before shows."""
    reached.add(("edge", text, ""))
