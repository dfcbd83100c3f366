#!/usr/bin/env python3
"""Writes the scenarios and what they must give: tests/scenarios/commands.txt and expected.txt.

What they must give is what the engine of tests/engine.py gives, which is an independent reading of document 01: the program's output is
compared with a second opinion. Only the names of states are those that the program prints.
It fails, and names them, if a row, a test of a first Invoke, a refusal or an edge case is not reached; what a scenario is there to show
is written beside its line as `has` and compared with what the reading gives, which names the row that each call meets.
usage: tests/scenarios.py [--check]   (--check: only say whether both files are as this script writes them)
"""
import pathlib
import sys

from engine import BOUND, CLASS, ROLES, STATES, Table, ends, reached, table_bytes
from playing import (G, R, abo, ans, copy, due, edge, expected, fill, fir, fires, fresh, get, lends, lines, look, octets, pair, put, rcv, record_at, req, res, sal, sets, size, tim, title, titles)


# ---- whole transactions between the two ends

def first_contact(cls, up=0, d="AABB", peer=5):
    """Two fresh ends; a request that the gateway verifies, up to its user's indication."""
    pair()
    req(R, 100, peer, cls, up, d, has="; sent 0E0007%02X%s; tid 7" % (32 + 16 * up + cls, d))
    get(G, 110, peer, has="Restarted%d}; sent 1C8007" % cls)
    get(R, 120, peer, has="TidokSent}; sent 1C0007")
    get(G, 130, peer, has="; invoke responder %d/7 class %d" % (peer, cls))


def transactions():
    title("class 0: one Invoke, shown without a record; each copy is shown again")
    pair()
    req(R, 100, 5, 0, 0, "0102", has="; sent 0E0007000102; tid 7")
    get(G, 110, 5, has="{Free Invoke Shown0}; invoke responder 5/7 datagram 4+2 0102")
    get(G, 120, 5, has="{Free Invoke Shown0}")
    look(R, has=": clock 100, next TID 8")
    look(G)
    title("class 0 with U/P and without data, with RID, and with an item before its data")
    pair()
    req(R, 100, 5, 0, 1, "", has="; sent 0E000710; tid 7")
    get(G, 110, 5, has="; invoke responder 5/7 up 1 datagram 4+0")
    rcv(G, 120, 5, "0F000700 55", has="; invoke responder 5/7 datagram 4+1 55")
    rcv(G, 130, 5, "8E000700 0A1122 5566", has="datagram 7+2 5566")
    title("class 1, first contact: verified, answered by the timer, confirmed")
    first_contact(1)
    tim(G, 1129, has="; none due")
    tim(G, 1130, has="{RInvokeRespWait1 Timer InvokeAcked}; sent 188007; fired responder 5/7")
    get(R, 1140, 5, has="{IResultWait1 PlainAck Confirmed}; confirm initiator 5/7 no data")
    tim(G, 6130, has="{RWaitTimeout Timer TimeoutEnds}; fired responder 5/7")
    look(R), look(G, has="last of 5 is 7")
    title("class 1, second contact: a valid TID is shown at once; exit information of two bytes in a short item")
    first_contact(1)
    ans(G, 140, 1, 5, 7, has="{RInvokeRespWait1 UserAnswer InvokeAnswered}; sent 188007")
    get(R, 150, 5, has="Confirmed}")
    req(R, 160, 5, 1, 0, "11223344", has="; sent 0E00080111223344; tid 8")
    get(G, 170, 5, has="{Free Invoke Valid1}; invoke responder 5/8 class 1 datagram 4+4 11223344")
    ans(G, 180, 1, 5, 8, "AABB", has="; sent 9880080AAABB")
    get(R, 190, 5, has="; confirm initiator 5/8 datagram 4+2 AABB")
    look(R), look(G, has="record 1 RWaitTimeout 5/8 RCR 0 AEC 0 due 5180 length 0 exit AABB")
    title("class 2 with hold-on: verified, hold-on, Result, last Ack with exit information AA BB")
    first_contact(2)
    tim(G, 1130, has="{RInvokeRespWait2 Timer HoldOnSent}; sent 188007")
    get(R, 1140, 5, has="{IResultWait2 PlainAck HeldOn}; confirm initiator 5/7 no data")
    tim(R, 90000, has="; none due")
    look(R, has="IResultWait2 5/7 RCR 1 AEC 0 due 0 length 2 HoldOn TIDok-sent"), look(G, has="RResultWait 5/7 RCR 0 AEC 0 due 0 length 2 hold-on-sent")
    res(G, 90000, 1, 5, 7, "0C0D0E", has="{RResultWait UserResult ResultSent}; sent 1680070C0D0E")
    get(R, 90010, 5, has="{IResultWait2 Result ResultTaken}; result initiator 5/7 datagram 3+3 0C0D0E")
    ans(R, 90020, 0, 5, 7, "AABB", has="{IResultRespWait UserAnswer ResultAnswered}; sent 9800070AAABB")
    get(G, 90030, 5, has="{RResultRespWait PlainAck Confirmed}; confirm responder 5/7 datagram 4+2 AABB")
    tim(R, 95020, has="TimeoutEnds}")
    look(R), look(G)
    title("class 2 without hold-on: the Result confirms the Invoke and is shown, in this order")
    first_contact(2)
    res(G, 140, 1, 5, 7, "0D", has="{RInvokeRespWait2 UserResult ResultSent}; sent 1680070D")
    get(R, 150, 5, has="{IResultWait2 Result ResultConfirms}; confirm initiator 5/7 no data; result initiator 5/7 datagram 3+1 0D")
    tim(R, 1150, has="{IResultRespWait Timer ResultAcked}; sent 180007; fired initiator 5/7")
    get(G, 1160, 5, has="; confirm responder 5/7 no data")
    title("class 2, the user answers and works on: timer A, hold-on, Result")
    first_contact(2)
    ans(G, 140, 1, 5, 7, has="{RInvokeRespWait2 UserAnswer UserWorks}")
    look(G, has="RResultWait 5/7 RCR 0 AEC 0 due 1140")
    tim(G, 1140, has="{RResultWait Timer HoldOnSent}; sent 188007")
    get(R, 1150, 5, has="HeldOn}")
    res(G, 1200, 1, 5, 7, "01", has="; sent 16800701")
    get(R, 1210, 5, has="ResultTaken}; result initiator")
    title("both ends in both roles at once, with the same peer and TID: role keeps them apart")
    pair()
    req(R, 100, 5, 1, 0, "A1"), req(G, 100, 5, 1, 0, "B2")
    rcv(R, 110, 5, "0E000701B2", has="; sent 1C8007"), rcv(G, 110, 5, "0E000701A1", has="; sent 1C8007")
    get(R, 120, 5, has="{IResultWait1 TidAck TidokSent}; sent 1C0007")
    get(G, 130, 5, has="{RTidokWait1 TidAck Verified1}; invoke responder 5/7 class 1 store 1024+1 A1")
    look(G, has=["record 0 IResultWait1 5/7", "record 1 RInvokeRespWait1 5/7"])
    ans(G, 140, 1, 5, 7, "01", has="; sent 98800709"), ans(G, 150, 0, 5, 7, "01", has="refused 9")


def user_acknowledgement():
    title("user acknowledgement, class 1: AEC counts to AEC_MAX 2, then Abort 8 and an abort")
    first_contact(1, up=1)
    for k, time in enumerate((1130, 2130)):
        tim(G, time, has="{RInvokeRespWait1 Timer UserAwaited}; fired responder 5/7")
        look(G, has="AEC %d due %d" % (k + 1, time + 1000))
    tim(G, 3130, has="{RInvokeRespWait1 Timer UserSilent}; sent 20800708; fired responder 5/7; abort responder 5/7 reason 8 no data")
    get(R, 3140, 5, has="{IResultWait1 ReceivedAbort PeerAborts}; abort initiator 5/7 reason 8 no data")
    look(R), look(G)
    title("user acknowledgement, class 2, both ends: the users answer in time")
    first_contact(2, up=1)
    tim(G, 1130, has="{RInvokeRespWait2 Timer UserAwaited}")
    ans(G, 1200, 1, 5, 7, has="UserWorks}")
    res(G, 1300, 1, 5, 7, "77", has="; sent 16800777")
    get(R, 1310, 5, has="ResultConfirms}")
    tim(R, 2310, has="{IResultRespWait Timer UserAwaited}; fired initiator 5/7")
    ans(R, 2400, 0, 5, 7, has="; sent 180007")
    get(G, 2410, 5, has="Confirmed}")
    title("user acknowledgement, class 2: the initiator's user stays silent")
    first_contact(2, up=1)
    res(G, 140, 1, 5, 7, "77")
    get(R, 150, 5)
    tim(R, 1150, has="UserAwaited}"), tim(R, 2150, has="UserAwaited}")
    tim(R, 3150, has="{IResultRespWait Timer UserSilent}; sent 20000708; fired initiator 5/7; abort initiator 5/7 reason 8 no data")
    get(G, 3160, 5, has="{RResultRespWait ReceivedAbort PeerAborts}; abort responder 5/7 reason 8")
    title("user acknowledgement with AEC_MAX 0: the first expiry aborts; class 2 responder")
    pair(_1=0)
    rcv(G, 10, 5, "0E000712"), rcv(G, 20, 5, "1C0007", has="class 2 up 1 store 0+0")
    tim(G, 1020, has="{RInvokeRespWait2 Timer UserSilent}; sent 20800708")
    title("U/P of the Invoke decides, not that of its repeats; it is kept over verification")
    pair()
    rcv(G, 10, 5, "0E000711 AA"), rcv(G, 20, 5, "0F000701 AA", has="TidveRepeated}"), rcv(G, 30, 5, "1C0007", has="class 1 up 1 store 0+1 AA")
    tim(G, 1030, has="UserAwaited}")
    title("AEC is 0 again at a Result: the count of one wait is not carried to another")
    pair()
    put(R, 11, 8)
    req(R, 10, 5, 2, 1, ""), put(R, 624 + 5, 8), rcv(R, 20, 5, "168007", has="ResultConfirms}"), look(R, has="AEC 0 due 1020")


def exit_information():
    title("exit information of 3, 4 and 128 bytes, and repeated Acks with it; 129 gives 4")
    for n, item in ((3, "0B"), (4, "0C04"), (128, "0C80")):
        pair()
        rcv(G, 10, 5, "0E000701"), rcv(G, 20, 5, "1C0007")
        ans(G, 30, 1, 5, 7, octets([0x61] * 129).hex(), has="refused 4")
        ans(G, 30, 1, 5, 7, octets([0x61] * n).hex(), has="; sent 988007" + item + "61")
        rcv(G, 40, 5, "0F000701", has="{RWaitTimeout InvokeRid InvokeSeenAgain}; sent 998007" + item + "61")
    title("exit information from the initiator, repeated with the last Ack")
    pair()
    req(R, 10, 5, 2), rcv(R, 20, 5, "168007 01"), ans(R, 30, 0, 5, 7, "A1A2A3A4", has="; sent 9800070C04A1A2A3A4")
    rcv(R, 40, 5, "178007 01", has="{IWaitTimeout ResultRid ResultSeenAgain}; sent 9900070C04A1A2A3A4"), look(R, has="due 5030 length 0 TIDnew exit A1A2A3A4")
    title("a confirmation shows the first Info item of its Ack, also an empty one; other items are passed over")
    for text, has in (("988007 0A1122", "datagram 4+2 1122"), ("988007 9155 0A1122", "datagram 6+2 1122"), ("988007 8911 0A2233", "datagram 4+1 11"),
                      ("988007 88 0A2233", "datagram 4+0"), ("988007 1155", "no data"), ("988007 0C02 AABB", "datagram 5+2 AABB")):
        pair()
        req(R, 10, 5, 1), rcv(R, 20, 5, text, has="; confirm initiator 5/7 " + has)
    title("255 bytes of exit information are shown; the bound of 128 is for sending")
    pair()
    req(R, 10, 5, 2), rcv(R, 20, 5, "988007 0CFF", [0x41] * 255, has="; confirm initiator 5/7 datagram 5+255 41*255,")
    title("an Info item of a Result is not shown with the confirmation that it causes")
    pair()
    req(R, 10, 5, 2), rcv(R, 20, 5, "968007 0A1122 33", has="; confirm initiator 5/7 no data; result initiator 5/7 datagram 6+1 33")


def resending():
    title("a request resent to RCR_MAX 4 with its own intervals, then given up")
    pair()
    req(R, 100, 5, 1, 0, "AABB")
    due = 2100
    for k in range(1, 5):
        tim(R, due - 1, has="; none due")
        tim(R, due, has="{IResultWait1 Timer Resent}; sent 0F000721AABB; fired initiator 5/7")
        due += 2000 + 100 * k
        look(R, has="RCR %d AEC 0 due %d" % (k, due))
    tim(R, due, has="{IResultWait1 Timer GivenUp}; fired initiator 5/7; abort initiator 5/7 reason 8 no data")
    look(R)
    title("the same for class 2, whose intervals are the other row; a late call fires once and counts from its own time")
    pair()
    req(R, 100, 5, 2, 1, "AABB")
    tim(R, 3099, has="; none due"), tim(R, 50000, has="{IResultWait2 Timer Resent}; sent 0F000732AABB"), look(R, has="RCR 1 AEC 0 due 53100")
    tim(R, 50000, has="; none due")
    title("a Result resent to RCR_MAX 4, then given up")
    pair()
    rcv(G, 10, 5, "0E000702"), rcv(G, 20, 5, "1C0007"), res(G, 100, 1, 5, 7, "DD")
    due = 3100
    for k in range(1, 5):
        tim(G, due, has="{RResultRespWait Timer ResultResent}; sent 178007DD")
        due += 3000 + 100 * k
    tim(G, due, has="{RResultRespWait Timer GivenUp}; fired responder 5/7; abort responder 5/7 reason 8 no data")
    title("RCR_MAX 0 sends one Invoke")
    pair(_0=0)
    req(R, 100, 5, 2, 0, "AABB", has="; sent 0E000722AABB")
    tim(R, 3100, has="{IResultWait2 Timer GivenUp}; fired initiator 5/7; abort initiator 5/7 reason 8 no data")
    title("RCR_MAX 0: a TIDve is not answered, so that first contact never succeeds; a running timer runs on")
    pair(_0=0)
    req(R, 100, 5, 1), get(G, 110, 5, has="; sent 1C8007"), get(R, 120, 5, has="{IResultWait1 TidAck Ignored}"), look(R, has="RCR 0 AEC 0 due 2100")
    tim(R, 2100, has="GivenUp}")
    title("RCR_MAX 0: one Result")
    pair(_0=0)
    rcv(G, 10, 5, "0E000702"), rcv(G, 20, 5, "1C0007"), res(G, 30, 1, 5, 7, "DD", has="; sent 168007DD"), tim(G, 3030, has="GivenUp}; fired responder 5/7; abort")
    title("RCR_MAX 8: the ninth interval of a row is used")
    pair(_0=8, _12=86400000)
    req(R, 0, 5, 1)
    for k in range(8):
        tim(R, 100000 * (k + 1), has="Resent}")
    look(R, has="RCR 8 AEC 0 due 87200000"), tim(R, 87199999, has="; none due"), tim(R, 87200000, has="GivenUp}")
    title("a TIDok is counted in RCR and, once sent, is what the timer resends, with RID; the first has none even after resent Invokes")
    pair(_0=3)
    req(R, 100, 5, 1, 0, "AABB"), tim(R, 2100, has="; sent 0F000721AABB")
    rcv(R, 2200, 5, "1C8007", has="TidokSent}; sent 1C0007"), look(R, has="RCR 2 AEC 0 due 4400 length 2 TIDok-sent")
    tim(R, 4400, has="{IResultWait1 Timer Resent}; sent 1D0007"), rcv(R, 4500, 5, "1D8007", has="{IResultWait1 TidAckRid Ignored}")
    look(R, has="RCR 3 AEC 0 due 6700"), tim(R, 6700, has="GivenUp}")
    title("TIDve while held on: TIDok, RCR + 1, and the timer runs again; a later Ack doesn't stop it")
    pair(_0=2)
    req(R, 100, 5, 2), rcv(R, 200, 5, "188007", has="HeldOn}"), look(R, has="due 0 length 0 HoldOn")
    rcv(R, 300, 5, "1C8007", has="{IResultWait2 TidAck TidokSent}; sent 1C0007"), look(R, has="RCR 1 AEC 0 due 3400 length 0 HoldOn TIDok-sent")
    rcv(R, 400, 5, "188007", has="{IResultWait2 PlainAck Ignored}"), look(R, has="due 3400")
    tim(R, 3400, has="; sent 1D0007"), tim(R, 6600, has="GivenUp}; fired initiator 5/7; abort initiator 5/7 reason 8")


# ---- TIDs and verification

def cached(last, peer=5, e=G):
    """A table whose LastTID of the peer is this: the header's octets of docs/TABLE.md."""
    pair()
    put(e, 112 + 2 * peer, (last + 1) % 256)
    put(e, 113 + 2 * peer, (last + 1) // 256)


def tids():
    title("GenTID counts 32,767 -> 0, for class 0 too; a refused request doesn't count")
    pair(first=32766)
    req(R, 10, 5, 0, has="; sent 0E7FFE00; tid 32766"), req(R, 20, 5, 1, has="; sent 0E7FFF21; tid 32767"), look(R, has="next TID 0, TIDnew due;")
    req(R, 30, 5, 3, has="refused 5"), look(R, has=": clock 20, next TID 0, TIDnew due;")
    req(R, 30, 5, 2, has="; sent 0E000022; tid 0"), req(R, 40, 5, 2, has="refused 7"), look(R, has=": clock 30, next TID 1;")
    title("LastTID 32,767, TID 0: valid; LastTID is then 0")
    cached(32767)
    rcv(G, 10, 5, "0E000002 AB", has="{Free Invoke Valid2}; invoke responder 5/0 class 2 datagram 4+1 AB"), look(G, has="last of 5 is 0;")
    title("LastTID 0: 16,383 valid")
    cached(0)
    rcv(G, 10, 5, "0E3FFF01", has="{Free Invoke Valid1}; invoke responder 5/16383"), look(G, has="last of 5 is 16383;")
    title("LastTID 0: 16,384 verified; verified, it doesn't become LastTID, since one is cached")
    cached(0)
    rcv(G, 10, 5, "0E400001 AA", has="{Free Invoke ToVerify1}; sent 1CC000"), look(G, has="last of 5 is 0;")
    rcv(G, 20, 5, "1C4000", has="Verified1}; invoke responder 5/16384 class 1 store 0+1 AA"), look(G, has="last of 5 is 0;")
    title("the same TID again, after its record ended, is verified: distance 0; so is one behind")
    cached(9)
    rcv(G, 10, 5, "0E000902", has="{Free Invoke ToVerify2}; sent 1C8009"), rcv(G, 20, 5, "0E000802", has="{Free Invoke ToVerify2}; sent 1C8008")
    title("LastTID is kept for each peer; the highest and the lowest peer")
    pair()
    for peer in (0, 255):
        rcv(G, 30, peer, "0E000901", has="ToVerify1}"), rcv(G, 30, peer, "1C0009", has="Verified1}; invoke responder %d/9" % peer)
        abo(G, 30, 1, peer, 9, 0, has="; sent 21800900")
    look(G, has=", last of 0 is 9, last of 255 is 9")
    title("two verifications in flight: the first that is finished sets LastTID, the second doesn't")
    pair()
    rcv(G, 10, 5, "0E000901"), rcv(G, 20, 5, "0E000A02")
    look(G, has=": clock 20, next TID 7, TIDnew due; record 0 RTidokWait1 5/9 RCR 0 AEC 0 due 0 length 0; record 1 RTidokWait2 5/10")
    rcv(G, 30, 5, "1D000A", has="{RTidokWait2 TidAckRid Verified2}; invoke responder 5/10"), look(G, has="last of 5 is 10;")
    rcv(G, 40, 5, "1C0009", has="{RTidokWait1 TidAck Verified1}; invoke responder 5/9"), look(G, has="last of 5 is 10;")
    title("a valid Invoke writes no cell: the message is shown from the datagram; to be verified, it is kept and shown from the store")
    cached(6)
    rcv(G, 10, 5, "0E000702 A1A2", has="datagram 4+2 A1A2"), look(G, has="due 1010 length 0")
    rcv(G, 20, 5, "8E000502 0A1122 B1B2", has="; sent 1C8005"), rcv(G, 30, 5, "1C0005", has="store 1024+2 B1B2")
    title("TIDve 1C 80 05 unmatched gives 20 00 05 02, with RID too; a live responder record of that TID doesn't match")
    pair()
    rcv(R, 10, 5, "1C8005", has="{Free TidAck UnknownTidve}; sent 20000502"), rcv(R, 20, 5, "1D8005", has="; sent 20000502")
    rcv(R, 30, 5, "0E000501", has="ToVerify1}"), rcv(R, 40, 5, "1C8005", has="UnknownTidve}; sent 20000502")
    req(R, 50, 5, 1), rcv(R, 60, 6, "1C8007", has="UnknownTidve}; sent 20000702")
    title("TIDve for a record in another state than RESULT WAIT is ignored, not answered with Abort 2")
    pair()
    req(R, 10, 5, 2), rcv(R, 20, 5, "168007"), rcv(R, 30, 5, "1C8007", has="{IResultRespWait TidAck Ignored}")


def as_read(records, first, **words):
    """Two fresh ends with the settings of the examples of document 02's reading: RCR_MAX 2, AEC_MAX 1, A 100, W 200, R 50 and 150 growing by 10."""
    rows = {"_%d" % (at + k): start + 10 * k for at, start in ((4, 50), (13, 150)) for k in range(9)}
    pair(records, first, _0=2, _1=1, _2=100, _3=200, **rows, **words)


def tidnew():
    title("02, L2: the first class 2 Invoke from a fresh table is 0E 00 05 22 and its repeat 0F 00 05 22; a later one is 0E 00 05 02")
    as_read(1, 5)
    req(R, 0, 7, 2, has="; sent 0E000522; tid 5"), look(R, has="next TID 6; record 0 IResultWait2 7/5 RCR 0 AEC 0 due 150 length 0 TIDnew"), tim(R, 150, has="; sent 0F000522")
    as_read(2, 4)
    req(R, 0, 7, 1, has="; sent 0E000421"), req(R, 0, 7, 2, has="; sent 0E000502"), fir(R, 150, 0, 7, 5, has="; sent 0F000502"), tim(R, 150, has="; sent 0F000421")
    title("TIDnew due from the fresh table and again after the wrap; class 0 and a refused request leave it due")
    as_read(3, 32766)
    req(R, 0, 7, 0, 1, "AB", has="; sent 0E7FFE10AB"), req(R, 0, 7, 3, has="refused 5"), req(R, 0, 7, 2, 1, "AB", has="; sent 0E7FFF32AB"), look(R, has="next TID 0, TIDnew due;")
    tim(R, 150, has="; sent 0F7FFF32AB"), req(R, 150, 7, 1, has="; sent 0E000021"), req(R, 150, 7, 1, has="; sent 0E000101")
    title("the Invoke whose request brings GenTID to 0 carries TIDnew only where it was due before; each repeat has its own record's")
    as_read(3, 32766)
    req(R, 0, 7, 2, has="; sent 0E7FFE22"), req(R, 0, 7, 2, has="; sent 0E7FFF02"), tim(R, 150, has="; sent 0F7FFE22"), tim(R, 150, has="; sent 0F7FFF02"), req(R, 150, 7, 2, has="; sent 0E000022")
    tim(R, 320, has="; sent 0F000022"), tim(R, 320, has="; sent 0F7FFE22"), tim(R, 320, has="; sent 0F7FFF02")
    title("a fresh table owes one TIDnew, not two, where its first GenTID is 0; each class, at 32,767 too")
    for cls in (1, 2):
        for first, next_tid in ((0, "0001"), (5, "0006")):
            pair(first=first)
            req(R, 10, 5, cls, has="; sent 0E%04X2%d" % (first, cls)), req(R, 20, 5, cls, has="; sent 0E%s0%d" % (next_tid, cls)), look(R, has=": clock 20, next TID %d; " % (first + 2))
        pair(first=32767)
        req(R, 10, 5, cls, has="; sent 0E7FFF2%d" % cls), req(R, 20, 5, cls, has="; sent 0E00002%d" % cls)
        pair(first=32767)
        put(R, 97, 0), req(R, 10, 5, cls, has="; sent 0E7FFF0%d" % cls), look(R, has="next TID 0, TIDnew due;"), req(R, 20, 5, cls, has="; sent 0E00002%d" % cls)
    title("class 0 carries none and takes none away; the one that brings GenTID to 0 makes it due")
    pair(first=32766)
    req(R, 10, 5, 1, has="; sent 0E7FFE21"), req(R, 20, 5, 0, has="; sent 0E7FFF00"), look(R, has="next TID 0, TIDnew due;"), req(R, 30, 5, 0, 1, has="; sent 0E000010"), req(R, 40, 5, 1, has="; sent 0E000121")
    req(R, 50, 5, 0, has="; sent 0E000200"), look(R, has="next TID 3;")
    pair(first=32767)
    req(R, 10, 5, 0, has="; sent 0E7FFF00"), look(R, has="next TID 0, TIDnew due"), req(R, 20, 5, 2, has="; sent 0E000022")
    title("a refused request leaves it due: 2, 3, 4, 5, 6, 7")
    pair(records=1)
    tim(R, 100)
    req(R, 99, 5, 1, has="refused 2"), req(R, 100, 256, 1, has="refused 3"), req(R, 100, 5, 1, 0, "00" * 1025, has="refused 4"), req(R, 100, 5, 3, has="refused 5"), look(R, has="next TID 7, TIDnew due")
    req(R, 100, 5, 1, has="; sent 0E000721"), put(R, 97, 1), req(R, 100, 5, 1, has="refused 7"), put(R, 8, 7), req(R, 100, 6, 2, has="refused 6"), look(R, has="next TID 7, TIDnew due;")
    title("TIDok is as it was; the record keeps TIDnew until it ends, and a free record is zero")
    pair()
    req(R, 10, 5, 2, has="; sent 0E000722"), rcv(R, 20, 5, "1C8007", has="; sent 1C0007"), tim(R, 3120, has="; sent 1D0007"), look(R, has="TIDok-sent TIDnew"), rcv(R, 3130, 5, "168007", has="ResultConfirms}")
    look(R, has="IResultRespWait 5/7 RCR 2 AEC 0 due 4130 length 0 TIDok-sent TIDnew"), ans(R, 3140, 0, 5, 7, has="; sent 180007"), look(R, has="IWaitTimeout"), tim(R, 8140, has="TimeoutEnds}"), look(R)
    title("TIDnew at a responder, the reading's example: the cached TID is dropped, and the Invoke verified although its distance is 1")
    as_read(4, 5)
    put(G, 112 + 14, 0x41), put(G, 112 + 16, 9)
    rcv(G, 0, 7, "0E004122 CC", has="{Free Invoke Restarted2}; sent 1C8041"), look(G, has=": clock 0, next TID 5, TIDnew due, last of 8 is 8; record 0 RTidokWait2 7/65")
    rcv(G, 0, 7, "0E004201", has="{Free Invoke ToVerify1}; sent 1C8042"), rcv(G, 0, 7, "1D0041", has="Verified2}; invoke responder 7/65 class 2 store 0+1 CC"), look(G, has=", last of 7 is 65, last of 8 is 8;")
    rcv(G, 0, 7, "0E004302", has="{Free Invoke Valid2}; invoke responder 7/67"), look(G, has="last of 7 is 67, last of 8 is 8;")
    title("each distance and RID with TIDnew, class 1 and 2: dropped and verified")
    for cls in (1, 2):
        for text in ("0E0001", "0F0001", "0E0000", "0F7FFF", "0E4000", "0E3FFF"):
            cached(0)
            rcv(G, 10, 5, "%s3%d AA" % (text, cls), has=["Restarted%d}; sent 1C" % cls]), look(G, has="next TID 7, TIDnew due; record 0 RTidokWait%d 5/" % cls)
        pair()
        rcv(G, 10, 5, "0E00092%d" % cls, has="Restarted%d}; sent 1C8009" % cls), look(G, has="next TID 7, TIDnew due; record 0")
    title("LastTID stays where an earlier test decides: version, TTR, length, no free record, malformed, class 0, top bit 1")
    for cls in (1, 2):
        cached(6)
        rcv(G, 10, 5, "0E00076%d" % cls, has="WrongVersion}; sent 20800706"), rcv(G, 20, 5, "0C00072%d" % cls, has="Unsupported}; sent 20800704"), rcv(G, 30, 5, "0E00072%d" % cls, [1] * 1025, has="TooLong}; sent 20800707")
        rcv(G, 40, 5, "8E00072%d" % cls, has="Malformed}; sent 20800701"), rcv(G, 50, 5, "0E80072%d" % cls, has="{Nobody}"), look(G, has="last of 5 is 6")
    rcv(G, 60, 5, "0E000723", has="Malformed}; sent 20800701"), rcv(G, 60, 5, "0E000720 AA", has="Shown0}; invoke responder 5/7"), rcv(G, 60, 5, "0E000760", has="Ignored}"), rcv(G, 60, 5, "0C000720", has="Ignored}")
    rcv(G, 60, 5, "0E000720", [1] * 1025, has="Ignored}"), look(G, has="last of 5 is 6")
    pair(records=1)
    put(G, 112 + 10, 9), rcv(G, 10, 5, "0E000901", has="Valid1}"), rcv(G, 20, 5, "0E000A21", has="{Free Invoke Ignored}"), rcv(G, 30, 5, "0E000A22", has="{Free Invoke Ignored}"), rcv(G, 40, 5, "0E000A20", has="Shown0}")
    look(G, has="last of 5 is 9; record 0 RInvokeRespWait1 5/9")
    title("an Invoke with TIDnew that names a live record is that record's event: LastTID stays")
    cached(6)
    rcv(G, 10, 5, "0E000702", has="Valid2}"), rcv(G, 20, 5, "0F000722", has="{RInvokeRespWait2 InvokeRid Ignored}"), rcv(G, 30, 5, "0E000622", has="Restarted2}"), look(G, has="next TID 7, TIDnew due; record 0")
    cached(6)
    rcv(G, 10, 5, "0E000702", has="Valid2}"), rcv(G, 20, 5, "0E000602", has="ToVerify2}"), rcv(G, 30, 5, "0F000622", has="TidveRepeated}; sent 1D8006"), rcv(G, 40, 5, "0E000622", has="{RTidokWait2 Invoke Ignored}"), look(G, has="last of 5 is 7;")
    title("what was dropped stays dropped when the verification fails; a valid distance is then verified too")
    cached(6)
    rcv(G, 10, 5, "0E000322", has="Restarted2}"), rcv(G, 20, 5, "200003 08", has="PeerAbortsUnseen}"), look(G, has=": clock 20, next TID 7, TIDnew due"), rcv(G, 30, 5, "0E000702", has="ToVerify2}; sent 1C8007")
    title("a reader that restarts with lower TIDs is verified once, not on every upload; without TIDnew it is on every one")
    sets()
    fresh(R, 4, 500), fresh(G, 4, 1)
    upload(500, "21", "Restarted1"), upload(501, "01", "Valid1")
    fresh(R, 4, 20)
    upload(20, "21", "Restarted1"), upload(21, "01", "Valid1"), upload(22, "01", "Valid1"), look(G, has="last of 5 is 22")
    for tid in (10, 11, 12):
        rcv(G, 600, 5, "0E00%02X01" % tid, has="ToVerify1}"), rcv(G, 600, 5, "1C00%02X" % tid, has="Verified1}"), abo(G, 600, 1, 5, tid, 0)
    look(G, has="last of 5 is 22")


def upload(tid, fourth, row):
    """A class 1 request at the reader, its TID verified where the row says so, up to its end at both ends."""
    req(R, 600, 5, 1, has="; sent 0E%04X%s" % (tid, fourth)), get(G, 600, 5, has="{Free Invoke %s}" % row)
    if row != "Valid1":
        get(R, 600, 5, has="; sent 1C%04X" % tid), get(G, 600, 5, has="Verified1}; invoke responder 5/%d" % tid)
    abo(G, 600, 1, 5, tid, 0), get(R, 600, 5, has="PeerAborts}")


def openings():
    title("a first Invoke of class 1 and 2: version, then TTR, then data over 1,024")
    for cls in (1, 2):
        cached(6)
        rcv(G, 10, 5, "0E00074%d" % cls, has="{Free Invoke WrongVersion}; sent 20800706"), rcv(G, 20, 5, "0C00078%d" % cls, [1] * 1025, has="; sent 20800706")
        rcv(G, 30, 5, "0C00070%d" % cls, [1] * 1025, has="{Free Invoke Unsupported}; sent 20800704"), rcv(G, 40, 5, "090007C%d" % cls, has="; sent 20800706")
        rcv(G, 50, 5, "0E00070%d" % cls, [1] * 1025, has="{Free Invoke TooLong}; sent 20800707")
        rcv(G, 60, 5, "0A00070%d" % cls, [1] * 1024, has="{Free Invoke Valid%d}; invoke responder 5/7 class %d datagram 4+1024 01*1024," % (cls, cls))
        look(G, has=": clock 60, next TID 7, TIDnew due, last of 5 is 7;")
    title("class 0 that fails version, TTR or length is ignored; 1,024 bytes are shown")
    pair()
    rcv(G, 10, 5, "0E000740", has="{Free Invoke Ignored}"), rcv(G, 20, 5, "0C000700", has="{Free Invoke Ignored}"), rcv(G, 30, 5, "0E000700", [1] * 1025, has="Ignored}")
    rcv(G, 40, 5, "0E000700", [1] * 1024, has="Shown0}; invoke responder 5/7 datagram 4+1024 01*1024,")
    title("1,024 bytes to be verified are kept whole and shown from the store")
    pair()
    rcv(G, 10, 5, "0E000701", [9] * 1024, has="; sent 1C8007"), rcv(G, 20, 5, "1C0007", has="store 0+1024 09*1024,")
    title("a full table: class 0 is shown; a first Invoke of class 1 or 2 is ignored, valid or not, and LastTID stays; its other tests are still answered")
    pair(records=1)
    put(G, 112 + 10, 9)
    rcv(G, 10, 5, "0E000901", has="Valid1}")
    rcv(G, 20, 5, "0E000A00 11", has="Shown0}; invoke responder 5/10 datagram 4+1 11"), rcv(G, 30, 5, "0E000A01", has="{Free Invoke Ignored}"), rcv(G, 40, 6, "0E000A02", has="{Free Invoke Ignored}")
    rcv(G, 50, 5, "0E000A41", has="; sent 20800A06"), rcv(G, 60, 5, "0C000A02", has="; sent 20800A04"), rcv(G, 70, 5, "0E000A02", [1] * 1025, has="; sent 20800A07"), rcv(G, 80, 5, "0E000A03", has="; sent 20800A01")
    look(G, has=": clock 80, next TID 7, TIDnew due, last of 5 is 9; record 0 RInvokeRespWait1 5/9")
    title("a first Invoke with RID is opened like any other")
    cached(6)
    rcv(G, 10, 5, "0F000701", has="{Free InvokeRid Valid1}; invoke"), rcv(G, 20, 6, "0F000702", has="{Free InvokeRid ToVerify2}; sent 1C8007")
    title("48 records and no 49th; an ended record is used again, the lowest first")
    sets()
    fresh(R, 48, 7)
    for k in range(48):
        req(R, 10, k, 1 + k % 2, 0, "%02X" % k, has="; tid %d" % (7 + k))
    req(R, 20, 5, 1, has="refused 7"), req(R, 20, 5, 2, has="refused 7"), req(R, 20, 5, 0, has="; tid 55")
    abo(R, 30, 0, 41, 48, 1, has="; sent 21003001"), abo(R, 30, 0, 3, 10, 1, has="; sent 21000A01")
    req(R, 40, 200, 1, 0, "EE", has="; tid 56"), tim(R, 3040, has="fired initiator 0/7"), look(R, has=["record 3 IResultWait1 200/56", "record 47 IResultWait2 47/54"])
    title("data 1,024 accepted, sent whole and resent from the store; 1,025 gives 4")
    pair()
    req(R, 10, 5, 1, 0, ("5A" * 1025), has="refused 4"), req(R, 10, 5, 0, 0, ("5A" * 1025), has="refused 4")
    req(R, 10, 5, 1, 0, ("5A" * 1024), has="; sent 0E0007215A*1024,; tid 7"), tim(R, 2010, has="; sent 0F0007215A*1024,")
    get(G, 10, 5, has="; sent 1C8007"), rcv(G, 20, 5, "1C0007", has="store 0+1024 5A*1024,")
    title("a result of 1,024 bytes is sent and resent; 1,025 gives 4")
    pair()
    rcv(G, 10, 5, "0E000702"), rcv(G, 20, 5, "1C0007"), res(G, 30, 1, 5, 7, "C3" * 1025, has="refused 4"), res(G, 30, 1, 5, 7, "C3" * 1024, has="; sent 168007C3*1024,")
    tim(G, 3030, has="; sent 178007C3*1024,"), get(R, 10, 5, has="{Free ResultRid Ignored}")
    title("a Result of more than 1,024 bytes is taken and shown whole, to 1,497; 1,501 octets give 11")
    for n in (1025, 1497):
        pair()
        req(R, 10, 5, 2), rcv(R, 20, 5, "168007", [7] * n, has="; result initiator 5/7 datagram 3+%d 07*%d," % (n, n))
    rcv(R, 30, 5, "168007", [7] * 1498, has="refused 11")


def malformed():
    title("malformed PDUs with a live record: Abort 1 and an abort, for each way of being malformed")
    for text in ("008007", "408007", "208007", "188007 00", "988007", "988007 0A11", "228007 01", "308007", "388007 01", "A88007"):
        pair()
        req(R, 10, 5, 2), rcv(R, 20, 5, text, has="{IResultWait2 MalformedPdu Malformed}; sent 20000701; abort initiator 5/7 reason 1 no data")
    pair()
    req(R, 10, 5, 2), rcv(R, 20, 5, "968007", [0x88] * 16, has="; sent 20000701; abort initiator 5/7 reason 1")
    title("malformed Invokes with a live responder record: class 3, cut header")
    for text in ("0E000703", "0E0007"):
        cached(6)
        rcv(G, 10, 5, "0E000702"), rcv(G, 20, 5, text, has="{RInvokeRespWait2 MalformedPdu Malformed}; sent 20800701; abort responder 5/7 reason 1 no data")
    title("malformed in TIDOK WAIT: Abort 1, and the user learns nothing")
    pair()
    rcv(G, 10, 5, "0E000702"), rcv(G, 20, 5, "180007 00", has="{RTidokWait2 MalformedPdu MalformedUnseen}; sent 20800701"), look(G, has=": clock 20, next TID 7")
    title("malformed without a record: Abort 1 only for an Invoke of three octets or more with top bit 0; class 0 and a full table too")
    pair(records=1)
    for text in ("0E0007", "0E000703", "8E000700", "8E000702 0A11"):
        rcv(G, 10, 5, text, has="{Free MalformedPdu Malformed}; sent 20800701")
    for text in ("000005", "788005", "188005 00", "1C8005 00", "1C0005 00", "200005", "228005 01", "300005", "380005 02 01", "A88005"):
        rcv(G, 20, 5, text, has="{Free MalformedPdu Ignored}")
    for text in ("0E", "0E00", "00", "FFFF"):
        rcv(G, 30, 5, text, has="{Nobody}")
    look(G, has=": clock 30, next TID 7")
    title("a PDU of one or two octets names no record, malformed as it is")
    pair()
    req(R, 10, 5, 1, has="; tid 7"), rcv(R, 20, 5, "18"), rcv(R, 30, 5, "1880"), look(R, has=": clock 30, next TID 8; record 0 IResultWait1 5/7")
    title("the wrong direction is ignored before any test, malformed or not, with a live record or without")
    pair()
    req(R, 10, 5, 2), rcv(R, 20, 5, "0E0007 01"), look(R, has="record 1 RTidokWait1 5/7")
    for text in ("0E800701", "0E8007", "0E800703", "160007", "960007", "0E800901", "0E8009", "160009", "960009"):
        rcv(R, 30, 5, text, has=": ok {Nobody}")
    look(R, has=["record 0 IResultWait2 5/7", "record 1 RTidokWait1 5/7"])
    title("Segmented PDUs of the wrong direction: ignored where well formed; malformed, they abort the record that they name")
    pair()
    req(R, 10, 5, 2), rcv(R, 20, 5, "2E800701 AA", has="{IResultWait2 Segmented Ignored}"), rcv(R, 30, 5, "2E8007", has="{IResultWait2 MalformedPdu Malformed}; sent 20000701")
    rcv(G, 10, 5, "0E000702"), rcv(G, 20, 5, "36000701 AA", has="{RTidokWait2 Segmented Ignored}"), rcv(G, 30, 5, "360007", has="MalformedUnseen}; sent 20800701")
    title("all else without a record is ignored, and its time is stored")
    pair()
    for text in ("188005", "198005", "180005", "190005", "1C0005", "1D0005", "208005 08", "200005 08", "218005 08", "168005", "178005", "148005", "158005",
                 "2E000501", "2E800501", "36000501", "36800501", "38000500", "38800500"):
        rcv(G, 50, 5, text, has=" Ignored}")
    look(G, has=": clock 50, next TID 7")


# ---- every event in every state

def reach(state, up=0, exit_info="", **words):
    """Peer 5, TID 7 in this state, with a message AA BB; initiator at the reader, responder at the gateway. Gives the end and its role."""
    pair(**words)
    cls = CLASS.get(state, 2)
    if state[0] == "I":
        req(R, 100, 5, cls, up, "AABB")
        if state not in ("IResultWait1", "IResultWait2"):
            rcv(R, 200, 5, "168007 CC")
        if state == "IWaitTimeout":
            ans(R, 300, 0, 5, 7, exit_info)
        return R, 0
    rcv(G, 100, 5, "0E0007%X%d AABB" % (up, cls))
    if not state.startswith("RTidokWait"):
        rcv(G, 200, 5, "1C0007")
    if state == "RResultWait":
        ans(G, 300, 1, 5, 7)
    if state == "RResultRespWait":
        res(G, 300, 1, 5, 7, "DDEE")
    if state == "RWaitTimeout":
        ans(G, 300, 1, 5, 7, exit_info)
    return G, 1


def ignored_in(state, texts, primitives):
    e, role = reach(state)
    look(e)
    top = "80" if role == 0 else "00"
    for text in texts:
        rcv(e, 400, 5, text.replace("t", top), has=["{%s " % state, " Ignored}"])
    if "answer" in primitives:
        ans(e, 400, role, 5, 7, has="refused 9 {%s UserAnswer NotAllowed}" % state)
    if "result" in primitives:
        res(e, 400, role, 5, 7, "01", has="refused 9 {%s UserResult NotAllowed}" % state)
    if "abort" in primitives:
        abo(e, 400, role, 5, 7, 1, has="refused 9 {%s UserAbort NotAllowed}" % state)
    look(e)


SEGMENTED = ["2Et0701", "36t0701", "38t0700"]
ACKS, TVES = ["18t07", "19t07"], ["1Ct07", "1Dt07"]
RESULTS, CUTS = ["16t07", "17t07"], ["14t07", "15t07"]
INVOKES = ["0Et0701", "0Ft0702"]


def in_every_state():
    title("what has no row is ignored, and primitives without one get 9: initiator RESULT WAIT, class 1")
    ignored_in("IResultWait1", RESULTS + CUTS + SEGMENTED, ["answer", "result"])
    title("the same, class 2")
    ignored_in("IResultWait2", SEGMENTED, ["answer", "result"])
    title("the same in RESULT RESP WAIT of the initiator: any Result and any Ack is ignored")
    ignored_in("IResultRespWait", RESULTS + CUTS + ACKS + TVES + SEGMENTED, ["result"])
    title("the same in WAIT TIMEOUT of the initiator; a Result without RID is not acknowledged again")
    ignored_in("IWaitTimeout", RESULTS[:1] + CUTS[:1] + ACKS + TVES + SEGMENTED, ["answer", "result"])
    for cls in "12":
        title("the same in TIDOK WAIT, class %s: the RID-clear copy of an Invoke and a plain Ack do nothing; no primitive is allowed" % cls)
        ignored_in("RTidokWait" + cls, INVOKES[:1] + ["0Et0700", "0Et0742"] + ACKS + SEGMENTED, ["answer", "result", "abort"])
    title("the same in INVOKE RESP WAIT, class 1: copies of the Invoke don't start timer A again; a result has no row")
    ignored_in("RInvokeRespWait1", INVOKES + ACKS + TVES + SEGMENTED, ["result"])
    title("the same in INVOKE RESP WAIT, class 2")
    ignored_in("RInvokeRespWait2", INVOKES + ACKS + TVES + SEGMENTED, [])
    title("the same in RESULT WAIT of the responder, hold-on not sent: a repeated Invoke is not answered")
    ignored_in("RResultWait", INVOKES + ACKS + TVES + SEGMENTED, ["answer"])
    title("the same in RESULT RESP WAIT of the responder: a TIDok is no plain Ack")
    ignored_in("RResultRespWait", INVOKES + TVES + SEGMENTED, ["answer", "result"])
    title("the same in WAIT TIMEOUT of the responder")
    ignored_in("RWaitTimeout", INVOKES[:1] + ACKS + TVES[:1] + SEGMENTED, ["answer", "result"])
    for state in STATES[1:]:
        title("abort row in %s: Abort of the provider, Abort of the user, malformed PDU, user abort" % state)
        seen = not state.startswith("RTidokWait")
        e, role = reach(state)
        top, sent = ("80", "00") if role == 0 else ("00", "80")
        rcv(e, 400, 5, "20%s07 05" % top, has="; abort %s 5/7 reason 5 no data" % ROLES[role] if seen else "PeerAbortsUnseen}")
        look(e)
        reach(state)
        rcv(e, 400, 5, "21%s07 C8" % top, has="; abort %s 5/7 type 1 reason 200 no data" % ROLES[role] if seen else "PeerAbortsUnseen}")
        reach(state)
        rcv(e, 400, 5, "18%s07 00" % top, has="; sent 20%s0701" % sent + ("; abort %s 5/7 reason 1 no data" % ROLES[role] if seen else ""))
        reach(state)
        abo(e, 400, role, 5, 7, 255, has="{%s UserAbort UserAborts}; sent 21%s07FF" % (state, sent) if seen else "refused 9")
        look(e)


def acting_rows():
    title("initiator RESULT WAIT, each class: TIDve with RID clear and set, first and again, to RCR_MAX")
    for cls in (1, 2):
        pair(_0=2)
        req(R, 10, 5, cls), rcv(R, 20, 5, "1C8007", has="; sent 1C0007"), rcv(R, 30, 5, "1C8007", has="; sent 1D0007"), rcv(R, 40, 5, "1C8007", has=" Ignored}"), rcv(R, 50, 5, "1D8007", has=" Ignored}")
        pair(_0=3)
        req(R, 10, 5, cls), rcv(R, 20, 5, "1D8007", has="; sent 1C0007"), rcv(R, 30, 5, "1D8007", has="; sent 1D0007"), tim(R, 9000, has="; sent 1D0007"), tim(R, 19000, has="GivenUp}")
    title("initiator RESULT WAIT: plain Ack with RID, first and again, class 1 and 2")
    pair()
    req(R, 10, 5, 1), rcv(R, 20, 5, "198007", has="Confirmed}; confirm initiator 5/7"), look(R)
    req(R, 30, 5, 2), rcv(R, 40, 5, "198008", has="HeldOn}; confirm initiator 5/8"), rcv(R, 50, 5, "198008", has="Ignored}"), rcv(R, 60, 5, "188008", has="Ignored}")
    title("initiator RESULT WAIT, class 2: a Result with RID, held on or not; GTR doesn't matter; TTR clear gives Abort 4")
    for text, has in (("178007 01", "ResultConfirms}; confirm"), ("128007 01", "ResultConfirms}; confirm"), ("148007 01", "{IResultWait2 ResultCut ResultUnsupported}; sent 20000704; abort initiator 5/7 reason 4 no data"),
                      ("118007", "{IResultWait2 ResultCutRid ResultUnsupported}; sent 20000704; abort")):
        pair()
        req(R, 10, 5, 2), rcv(R, 20, 5, text, has=has), look(R)
    for text in ("168007 01", "178007 01"):
        pair()
        req(R, 10, 5, 2), rcv(R, 20, 5, "188007"), rcv(R, 30, 5, text, has="ResultTaken}; result initiator 5/7 datagram 3+1 01")
    title("WAIT TIMEOUT of the initiator: a Result with RID is acknowledged again without exit information, TTR clear too, and the timer runs on")
    e, _ = reach("IWaitTimeout")
    rcv(e, 400, 5, "178007", has="; sent 190007"), rcv(e, 500, 5, "158007", has="ResultSeenAgain}; sent 190007"), look(e, has="due 5300"), tim(e, 5299, has="none due"), tim(e, 5300, has="TimeoutEnds}")
    e, _ = reach("IWaitTimeout", exit_info="A1")
    rcv(e, 400, 5, "178007", has="; sent 99000709A1"), rcv(e, 500, 5, "158007", has="; sent 99000709A1")
    title("TIDOK WAIT: an Invoke with RID is answered with TIDve again, whatever else it says, class 0 too; TIDok with RID verifies as well")
    for cls in (1, 2):
        e, _ = reach("RTidokWait%d" % cls)
        for text in ("0F000701", "0F000702 CCDD", "0F000740", "09000700"):
            rcv(e, 400, 5, text, has="TidveRepeated}; sent 1D8007")
        rcv(e, 500, 5, "1D0007", has="Verified%d}; invoke responder 5/7 class %d store 0+2 AABB" % (cls, cls)), look(e)
        cached(6)
        rcv(G, 10, 5, "0E000702"), rcv(G, 20, 5, "0E00060%d" % cls, has="ToVerify"), rcv(G, 30, 5, "1C0006", has="Verified%d}; invoke responder 5/6" % cls), look(G, has="last of 5 is 7;")
        cached(6)
        rcv(G, 10, 5, "0E00060%d" % cls, has="ToVerify"), rcv(G, 30, 5, "1D0006", has="Verified%d}" % cls)
    title("class 2 RESULT WAIT, hold-on sent: an Invoke with RID gets the hold-on again, a copy without RID nothing")
    e, _ = reach("RInvokeRespWait2")
    tim(e, 1200, has="HoldOnSent}; sent 188007"), rcv(e, 1300, 5, "0F000702 AABB", has="{RResultWait InvokeRid HoldOnRepeated}; sent 198007"), rcv(e, 1400, 5, "0E000702 AABB", has="{RResultWait Invoke Ignored}")
    rcv(e, 1500, 5, "0F000700", has="HoldOnRepeated}; sent 198007"), look(e, has="RResultWait 5/7 RCR 0 AEC 0 due 0 length 2 hold-on-sent")
    title("RESULT RESP WAIT of the responder: a plain Ack with RID and exit information confirms")
    e, _ = reach("RResultRespWait")
    rcv(e, 400, 5, "990007 0C04 01020304", has="{RResultRespWait PlainAck Confirmed}; confirm responder 5/7 datagram 5+4 01020304"), look(e)
    title("WAIT TIMEOUT of the responder: an Invoke or a TIDok with RID gets the Ack again; the timer runs on")
    for x, sent in (("", "198007"), ("B1B2", "9980070AB1B2")):
        e, _ = reach("RWaitTimeout", exit_info=x)
        rcv(e, 400, 5, "0F000701 AABB", has="InvokeSeenAgain}; sent " + sent), rcv(e, 400, 5, "1D0007", has="TidokSeenAgain}; sent " + sent)
        look(e, has="due 5300"), tim(e, 5300, has="TimeoutEnds}"), look(e)
    title("a verified class 1 transaction that loses its Ack: the TIDok with RID brings it again")
    first_contact(1)
    ans(G, 140, 1, 5, 7, has="; sent 188007")
    tim(R, 2220, has="{IResultWait1 Timer Resent}; sent 1D0007"), get(G, 2230, 5, has="{RWaitTimeout TidAckRid TidokSeenAgain}; sent 198007"), get(R, 2240, 5, has="Confirmed}")
    title("class 2 responder with user acknowledgement: AEC to AEC_MAX, and a result without an answer before it")
    e, _ = reach("RInvokeRespWait2", up=1)
    tim(e, 1200, has="UserAwaited}"), tim(e, 2200, has="UserAwaited}"), tim(e, 3200, has="UserSilent}; sent 20800708; fired responder 5/7; abort responder 5/7 reason 8 no data")
    e, _ = reach("RInvokeRespWait2", up=1)
    tim(e, 1200), res(e, 1300, 1, 5, 7, "", has="ResultSent}; sent 168007"), look(e, has="RResultRespWait 5/7 RCR 0 AEC 1 due 4300 length 0 user-ack")
    title("a message shorter than the one in its cell: only its own length is resent")
    pair(records=1)
    req(R, 10, 5, 1, 0, "A1A2A3A4A5"), abo(R, 20, 0, 5, 7, 0), req(R, 30, 5, 1, 0, "B1", has="; sent 0E000801B1"), tim(R, 2030, has="; sent 0F000801B1")
    put(R, 640, 5), tim(R, 5000, has="; sent 0F000801B1A2A3A4A5")


# ---- timers, numbers, the table

def timers():
    title("ties of deadlines: the lowest place first, one record a call")
    pair(records=3)
    for peer in (9, 8, 7):
        req(R, 100, peer, 1)
    for peer, tid in ((9, 7), (8, 8), (7, 9)):
        tim(R, 2100, has="; fired initiator %d/%d" % (peer, tid))
    tim(R, 2100, has="{NoneDue}; none due")
    title("the earliest deadline first, whatever its place")
    pair(records=3)
    req(R, 100, 5, 2), req(R, 200, 5, 1), req(R, 150, 5, 1, has="refused 2"), req(R, 300, 5, 1)
    tim(R, 5000, has="; fired initiator 5/8"), tim(R, 5000, has="; fired initiator 5/9"), tim(R, 5000, has="; fired initiator 5/7"), tim(R, 5000, has="; none due")
    title("time going back gives 2 and stores nothing; the same time is good; none due stores it")
    pair()
    tim(R, 1000, has="; none due"), tim(R, 999, has="refused 2"), tim(R, 1000), req(R, 999, 5, 1, has="refused 2"), look(R, has=": clock 1000, next TID 7")
    title("the bound of times: 1,000,000,000,000 is accepted, one more gives 2; a deadline past the bound is never due")
    pair()
    req(R, BOUND + 1, 5, 1, has="refused 2"), req(R, BOUND, 5, 1, has="; tid 7"), look(R, has=": clock 1000000000000, next TID 8; record 0 IResultWait1 5/7 RCR 0 AEC 0 due 1000000002000")
    tim(R, BOUND, has="; none due"), tim(R, 2 ** 64 - 1, has="refused 2")
    title("a deadline in TIDOK WAIT, which only a crafted table has: the firing has no row and is ignored, and names the record each time")
    for cls in (1, 2):
        pair()
        rcv(G, 10, 5, "0E00070%d" % cls), put(G, 632, 100), tim(G, 99, has="; none due"), tim(G, 100, has="{RTidokWait%d Timer Ignored}; fired responder 5/7" % cls), tim(G, 200, has="; fired responder 5/7")
        look(G, has=": clock 200, next TID 7, TIDnew due; record 0 RTidokWait%d 5/7 RCR 0 AEC 0 due 100" % cls)
    title("a PDU or a firing that is ignored stores its time")
    pair()
    rcv(R, 500, 5, "188005", has="Ignored}"), tim(R, 499, has="refused 2"), rcv(R, 500, 5, "18", has="{Nobody}"), rcv(R, 600, 5, "0E800701", has="{Nobody}"), look(R, has=": clock 600")


def timer_in_two():
    title("02, L3: the earliest deadline, and the firing of a record that is named: the reading's example, row by row")
    as_read(3, 5)
    req(R, 1000, 7, 2, has="; sent 0E000522; tid 5"), req(R, 1000, 8, 1, 0, "01", has="; sent 0E00060101; tid 6"), req(R, 1000, 9, 1, 0, "02", has="; sent 0E00070102; tid 7")
    due(R, has=": ok; 1050 initiator 8/6")
    fir(R, 1049, 0, 9, 7, has="refused 9")
    fir(R, 1050, 0, 9, 9, has="refused 8")
    fir(R, 1050, 0, 256, 9, has="refused 3")
    fir(R, 1050, 0, 9, 7, has="; sent 0F00070102; fired initiator 9/7")
    fir(R, 1160, 0, 7, 5, has="; sent 0F000522; fired initiator 7/5")
    tim(R, 1160, has="; sent 0F00060101; fired initiator 8/6")
    due(R, has=": ok; 1110 initiator 9/7")
    title("no deadline: no live record, TIDOK WAIT, held on; firing such a record gives 9")
    pair()
    due(R, has=": ok; none"), rcv(R, 10, 5, "0E000701", has="; sent 1C8007"), due(R, has="; none"), fir(R, 9999, 1, 5, 7, has="refused 9")
    req(R, 20, 5, 2), due(R, has="; 3020 initiator 5/7"), rcv(R, 30, 5, "188007", has="HeldOn}"), due(R, has="; none"), fir(R, 9999, 0, 5, 7, has="refused 9"), look(R, has=": clock 30,")
    title("the earliest deadline whatever its place, one that is past and one past the bound of times; it takes no time and stores none")
    pair(records=3)
    req(R, 100, 5, 2), req(R, 200, 5, 1), req(R, 300, 5, 1), due(R, has="; 2200 initiator 5/8"), due(R, has="; 2200 initiator 5/8"), look(R, has=": clock 300,")
    fir(R, BOUND, 0, 5, 9, has="; sent 0F000901; fired initiator 5/9"), due(R, has="; 2200 initiator 5/8"), fir(R, BOUND, 0, 5, 8), due(R, has="; 3100 initiator 5/7"), fir(R, BOUND, 0, 5, 7)
    due(R, has="; 1000000002100 initiator 5/8"), fir(R, BOUND, 0, 5, 8, has="refused 9"), fir(R, BOUND + 1, 0, 5, 8, has="refused 2")
    title("the timer call is the two together, in answer, table, store and output, as long as a record is due; where none is, it alone stores its time")
    pair(records=3)
    for e in (R, G):
        req(e, 100, 5, 2, 0, "A1"), req(e, 100, 6, 1, 0, "B2"), rcv(e, 100, 7, "0E000911"), rcv(e, 100, 7, "1C0009")
    for name, has in (((1, 7, 9), "fired responder 7/9"), ((0, 6, 8), "; sent 0F000801B2; fired initiator 6/8"), ((0, 5, 7), "; sent 0F000722A1; fired initiator 5/7")):
        tim(R, 9000, has=has), due(G, has="initiator %d/%d" % name[1:] if name[0] == 0 else "responder 7/9"), fir(G, 9000, *name, has=has)
        assert expected[-1].split(":", 1)[1] == expected[-3].split(":", 1)[1] and ends[R].octets[:table_bytes(3)] == ends[G].octets[:table_bytes(3)]
    look(R, has=": clock 9000,"), tim(R, 9500, has="; none due"), look(R, has=": clock 9500,"), due(G), fir(G, 9500, 0, 5, 7, has="refused 9"), look(G, has=": clock 9000,")
    title("the timer's row of every state, fired by name: one millisecond before its deadline it isn't due")
    for state, has in (("IResultWait1", "; sent 0F000721AABB"), ("IResultWait2", "; sent 0F000722AABB"), ("RResultRespWait", "; sent 178007DDEE")):
        e, role = reach(state)
        for k in range(4):
            fires(e, role, has=has)
        fires(e, role, has="GivenUp}; fired %s 5/7; abort %s 5/7 reason 8 no data" % (ROLES[role], ROLES[role]))
        fir(e, 10 ** 6, role, 5, 7, has="refused 8")
    for cls in (1, 2):
        e, role = reach("IResultWait%d" % cls)
        rcv(e, 150, 5, "1C8007", has="; sent 1C0007"), fires(e, role, has="; sent 1D0007")
        e, role = reach("RTidokWait%d" % cls)
        put(e, 633, 1), fires(e, role, has="{RTidokWait%d Timer Ignored}; fired responder 5/7" % cls), fir(e, 1000, role, 5, 7, has="Ignored}; fired responder 5/7"), due(e, has="; 256 responder 5/7")
    for state, has in (("IResultRespWait", "ResultAcked}; sent 180007"), ("IWaitTimeout", "TimeoutEnds}"), ("RInvokeRespWait1", "InvokeAcked}; sent 188007"), ("RInvokeRespWait2", "HoldOnSent}; sent 188007"),
                       ("RResultWait", "HoldOnSent}; sent 188007"), ("RWaitTimeout", "TimeoutEnds}")):
        e, role = reach(state)
        fires(e, role, has=has)
    for state in ("IResultRespWait", "RInvokeRespWait1", "RInvokeRespWait2"):
        e, role = reach(state, up=1)
        for has in ("UserAwaited}", "UserAwaited}", "UserSilent}; sent 20%s0708" % ("00", "80")[role]):
            fires(e, role, has=has)
    title("the deadline's only number is 1: the table's size and form, and fewer than 5 words; store and output aren't lent")
    pair(records=2)
    req(R, 10, 5, 1)
    for sizes in ((975, 2048, 1100, 33, 32), (977, 2048, 1100, 33, 32), (624, 0, 1100, 33, 32), (0, 0, 1100, 33, 32), (9248, 50176, 1100, 33, 32), (976, 2048, 1100, 4, 32), (976, 2048, 1100, 0, 32)):
        lends(*sizes), due(R, has="refused 1")
    lends(976, 0, 0, 5, 32), due(R, has="; 2010 initiator 5/7"), lends(), put(R, 648, 1), due(R, has="refused 1"), put(R, 648, 0), due(R, has="; 2010 initiator 5/7")
    title("firing: 1, 2, 3, 8, 9, the lowest first; a role that is none and a TID with its top bit have no live record")
    pair()
    req(R, 10, 5, 1), put(R, 100, 1), fir(R, 9, 2, 256, 7, has="refused 1"), put(R, 100, 0), fir(R, 9, 2, 256, 7, has="refused 2"), fir(R, 10, 2, 256, 7, has="refused 3"), fir(R, 10, 0, 2 ** 64 - 1, 7, has="refused 3")
    for name in ((2, 5, 7), (2 ** 64 - 1, 5, 7), (1, 5, 7), (0, 6, 7), (0, 5, 8), (0, 5, 0x8007), (0, 5, 65536 + 7), (0, 5, 2 ** 64 - 1)):
        fir(R, 10, *name, has="refused 8")
    fir(R, 10, 0, 5, 7, has="refused 9"), fir(R, 2009, 0, 5, 7, has="refused 9"), look(R, has=": clock 10,"), fir(R, 2010, 0, 5, 7, has="; sent 0F000721; fired initiator 5/7")


LIMIT = {"_22": 1, "_23": 5000}


def held_on():
    """An initiator's record 7/5 that was held on at 10, with a waiting limit of 5,000."""
    as_read(2, 5, **LIMIT)
    req(R, 0, 7, 2), rcv(R, 10, 7, "188005", has="HeldOn}; confirm initiator 7/5"), due(R, has="; 5010 initiator 7/5")


def shown_at_gateway(up=0):
    """A responder's record 7/64 of class 2 whose Invoke was shown at 10, with a waiting limit of 5,000."""
    as_read(2, 5, **LIMIT)
    put(G, 112 + 14, 0x40), rcv(G, 10, 7, "0E0040%d2 CC" % up, has="Valid2}"), due(G, has="; 110 responder 7/64")


def waiting_limit():
    title("02, L6: the reading's examples with limit 5,000. TIDOK WAIT ends silently")
    as_read(2, 5, **LIMIT)
    look(G, has="TIDnew due, waiting limit 5000")
    rcv(G, 0, 7, "0E004002 CC", has="; sent 1C8040"), due(G, has="; 5000 responder 7/64"), look(G, has="RTidokWait2 7/64 RCR 0 AEC 0 due 5000 limit 5000 length 1")
    rcv(G, 4000, 7, "0F004002 CC", has="; sent 1D8040"), due(G, has="; 5000 responder 7/64"), tim(G, 4999, has="; none due")
    tim(G, 5000, has="{RTidokWait2 Timer TidokWaitEnds}; fired responder 7/64"), assert_line(" {0: RTidokWait2 -> Free}; fired responder 7/64")
    rcv(G, 5000, 7, "1C0040", has="{Free TidAck Ignored}"), look(G, has=": clock 5000, next TID 5, TIDnew due, waiting limit 5000")
    title("held on: the wait ends with an abort and no PDU; a later plain Ack leaves the limit")
    held_on()
    rcv(R, 3000, 7, "198005", has="Ignored}"), due(R, has="; 5010 initiator 7/5"), look(R, has="due 5010 limit 5000 length 0 HoldOn")
    tim(R, 5009, has="; none due"), tim(R, 5010, has="{IResultWait2 Timer HeldOnWaitEnds}"), assert_line(" {0: IResultWait2 -> Free}; fired initiator 7/5; abort initiator 7/5 reason 8 no data; cost 4, ended")
    title("held on and then a TIDve: an ordinary timer again, which a later plain Ack doesn't stop and which starts no limit")
    held_on()
    rcv(R, 3000, 7, "1C8005", has="TidokSent}; sent 1C0005"), due(R, has="; 3160 initiator 7/5"), rcv(R, 3001, 7, "188005", has="Ignored}"), due(R, has="; 3160 initiator 7/5"), look(R, has="due 3160 length 0 HoldOn TIDok-sent")
    tim(R, 3160, has="Resent}; sent 1D0005"), due(R, has="; 3330 initiator 7/5"), rcv(R, 3170, 7, "1C8005", has="Ignored}"), due(R, has="; 3330 initiator 7/5")
    tim(R, 3330, has="GivenUp}; fired initiator 7/5; abort initiator 7/5 reason 8")
    title("the responder's RESULT WAIT after its hold-on: Abort 8 and an abort; a repeated hold-on leaves the limit")
    shown_at_gateway()
    tim(G, 110, has="HoldOnSent}; sent 188040"), due(G, has="; 5110 responder 7/64"), rcv(G, 200, 7, "0F004002 CC", has="HoldOnRepeated}; sent 198040"), due(G, has="; 5110 responder 7/64"), look(G, has="due 5110 limit 5000 length 0 hold-on-sent")
    tim(G, 5109, has="; none due"), tim(G, 5110, has="{RResultWait Timer ResultWaitEnds}"), assert_line(" {0: RResultWait -> Free}; sent 20804008; fired responder 7/64; abort responder 7/64 reason 8 no data")
    limits_fired()
    limits_left()
    limits_ended()
    limits_off_and_made_up()
    limits_refused()
    firings_bounded()


def assert_line(end):
    """The line before gives exactly this after its number."""
    assert expected[-1].endswith(": ok" + end), expected[-1]


def limits_fired():
    title("each limit fired by name, as by the timer: one millisecond before, it isn't due")
    for cls in (1, 2):
        pair(**LIMIT)
        rcv(G, 100, 5, "0E00070%d AABB" % cls, has="; sent 1C8007"), fires(G, 1, has="{RTidokWait%d Timer TidokWaitEnds}; fired responder 5/7" % cls), fir(G, 9000, 1, 5, 7, has="refused 8")
        rcv(G, 9000, 5, "0E00070%d" % cls, has="ToVerify%d}" % cls), tim(G, 14000, has="TidokWaitEnds}")
    pair(**LIMIT)
    req(R, 0, 5, 2), rcv(R, 10, 5, "188007"), fires(R, 0, has="HeldOnWaitEnds}; fired initiator 5/7; abort initiator 5/7 reason 8 no data")
    pair(**LIMIT)
    rcv(G, 100, 5, "0E000702"), rcv(G, 200, 5, "1C0007"), fires(G, 1, has="HoldOnSent}; sent 188007"), fires(G, 1, has="ResultWaitEnds}; sent 20800708; fired responder 5/7; abort responder 5/7 reason 8")
    title("of a limit and a timer the earlier is told and fired first; a table that is full of half-open transactions comes free by itself")
    pair(records=2, **LIMIT)
    rcv(G, 0, 5, "0E000901"), rcv(G, 10, 6, "0E000902"), rcv(G, 20, 7, "0E000702", has="{Free Invoke Ignored}"), due(G, has="; 5000 responder 5/9"), tim(G, 5000, has="fired responder 5/9"), due(G, has="; 5010 responder 6/9")
    rcv(G, 5000, 7, "0F000702", has="ToVerify2}; sent 1C8007"), rcv(G, 5001, 7, "1C0007", has="Verified2}"), due(G, has="; 5010 responder 6/9"), tim(G, 5010, has="fired responder 6/9"), due(G, has="; 6001 responder 7/7")
    title("the end of TIDOK WAIT leaves LastTID: a cached one stays, one that TIDnew dropped stays dropped; other peers' stay")
    for fourth, has in (("01", ", last of 5 is 9, last of 6 is 3"), ("02", ", last of 5 is 9, last of 6 is 3"), ("21", "waiting limit 5000, last of 6 is 3"), ("22", "waiting limit 5000, last of 6 is 3")):
        pair(**LIMIT)
        put(G, 112 + 10, 10), put(G, 112 + 12, 4), rcv(G, 0, 5, "0E0009" + fourth, has="; sent 1C8009"), tim(G, 5000, has="TidokWaitEnds}"), look(G, has=has)
    title("a limit has no cap: at the last time it lies 86,400,000 past the bound, is told and never due")
    pair(_22=1, _23=86400000)
    rcv(G, BOUND, 5, "0E000701"), due(G, has="; 1000086400000 responder 5/7"), tim(G, BOUND, has="; none due"), look(G, has="due 1000086400000 limit 86400000")


def limits_left():
    title("what has no row, and a refused primitive, leaves the limit: TIDOK WAIT, held on, RESULT WAIT of the responder")
    for cls in (1, 2):
        pair(**LIMIT)
        rcv(G, 0, 5, "0E00070%d" % cls)
        for text in ("0E000701", "0F000702", "180007", "190007", "2E000701", "36000701", "38000700"):
            rcv(G, 10, 5, text)
        ans(G, 20, 1, 5, 7, has="refused 9"), res(G, 20, 1, 5, 7, has="refused 9"), abo(G, 20, 1, 5, 7, 0, has="refused 9"), due(G, has="; 5000 responder 5/7")
    held_on()
    for text in ("188005", "198005", "2E800501", "36800501", "38800500", "1880", "0E800502"):
        rcv(R, 20, 7, text)
    ans(R, 30, 0, 7, 5, has="refused 9"), res(R, 30, 0, 7, 5, has="refused 9"), due(R, has="; 5010 initiator 7/5"), look(R, has="limit 5000")
    shown_at_gateway()
    tim(G, 110, has="HoldOnSent}")
    for text in ("0F004002", "0E004002", "180040", "1C0040", "1D0040", "2E004001", "38004000"):
        rcv(G, 120, 7, text)
    ans(G, 130, 1, 7, 64, has="refused 9"), ans(G, 130, 1, 7, 64, "AA", has="refused 4"), due(G, has="; 5110 responder 7/64"), look(G, has="limit 5000")
    title("TIDve at RCR_MAX leaves the limit of a wait that was held on")
    pair(_0=1, **LIMIT)
    req(R, 0, 5, 2), rcv(R, 10, 5, "1C8007", has="; sent 1C0007"), rcv(R, 20, 5, "188007", has="HeldOn}"), due(R, has="; 5020 initiator 5/7"), rcv(R, 30, 5, "1C8007", has="Ignored}"), due(R, has="; 5020 initiator 5/7")
    tim(R, 5020, has="HeldOnWaitEnds}; fired initiator 5/7; abort initiator 5/7 reason 8")


def limits_ended():
    title("rows that start a timer end the limit: TIDok, a Result while held on, the user's result, and the user's answer, after which come A, hold-on, limit and end")
    for cls in (1, 2):
        pair(**LIMIT)
        rcv(G, 0, 5, "0E00070%d" % cls), rcv(G, 10, 5, "1C0007", has="Verified%d}" % cls), due(G, has="; 1010 responder 5/7"), look(G, has="due 1010 length 0")
    held_on()
    rcv(R, 20, 7, "168005", has="ResultTaken}"), due(R, has="; 120 initiator 7/5"), look(R, has="due 120 length 0 HoldOn"), tim(R, 120, has="ResultAcked}"), look(R, has="IWaitTimeout 7/5 RCR 0 AEC 0 due 320 length 0"), tim(R, 320, has="TimeoutEnds}")
    shown_at_gateway()
    tim(G, 110, has="HoldOnSent}"), res(G, 120, 1, 7, 64, "DD", has="; sent 168040DD"), due(G, has="; 270 responder 7/64"), look(G, has="RResultRespWait 7/64 RCR 0 AEC 0 due 270 length 1 hold-on-sent")
    shown_at_gateway(up=1)
    ans(G, 20, 1, 7, 64, has="UserWorks}"), due(G, has="; 120 responder 7/64"), tim(G, 120, has="HoldOnSent}; sent 188040"), due(G, has="; 5120 responder 7/64"), tim(G, 5120, has="ResultWaitEnds}; sent 20804008")
    title("an abort, a malformed PDU and the user's abort end such a wait as before")
    for text, has in (("200007 08", "PeerAbortsUnseen}"), ("180007 00", "MalformedUnseen}; sent 20800701")):
        for cls in (1, 2):
            pair(**LIMIT)
            rcv(G, 0, 5, "0E00070%d" % cls), rcv(G, 10, 5, text, has=has), due(G, has="; none")
    held_on()
    abo(R, 20, 0, 7, 5, 3, has="; sent 21000503"), due(R, has="; none")
    shown_at_gateway()
    tim(G, 110), rcv(G, 120, 7, "210040 05", has="; abort responder 7/64 type 1 reason 5"), due(G, has="; none")


def limits_off_and_made_up():
    title("with the mode off the same waits have no deadline")
    as_read(3, 5)
    rcv(G, 0, 7, "0E004001"), rcv(G, 0, 8, "0E004002"), rcv(G, 0, 9, "0E004022"), due(G, has="; none"), rcv(G, 0, 8, "1C0040"), rcv(G, 0, 9, "1C0040"), tim(G, 100, has="HoldOnSent}"), ans(G, 100, 1, 9, 64), tim(G, 200, has="HoldOnSent}"), due(G, has="; none")
    req(R, 0, 7, 2), rcv(R, 10, 7, "188005", has="HeldOn}"), due(R, has="; none"), look(R, has="next TID 6; record 0 IResultWait2 7/5 RCR 0 AEC 0 due 0 length 0 HoldOn")
    title("a made-up table: whether a firing is a limit's the record says and not the mode; in other waits, and without its flag, it is the timer's")
    for words in ({}, LIMIT):
        for cls in (1, 2):
            e, role = reach("RTidokWait%d" % cls, **words)
            set_due(e, 0, 0), tim(e, 500, has="{RTidokWait%d Timer Ignored}; fired responder 5/7" % cls), set_due(e, 0, 1), tim(e, 500, has="TidokWaitEnds}; fired responder 5/7")
        e, role = reach("IResultWait2", **words)
        set_due(e, 0, 1), tim(e, 500, has="Resent}; sent 0F000702AABB"), look(e, has="due 3600 length 2"), set_due(e, 2, 0), tim(e, 500, has="Resent}; sent 0F000702AABB"), set_due(e, 2, 1), tim(e, 500, has="HeldOnWaitEnds}")
        e, role = reach("IResultWait1", **words)
        set_due(e, 2, 1), tim(e, 500, has="Resent}; sent 0F000701AABB"), look(e, has="due 2600 length 2 HoldOn")
        e, role = reach("RResultWait", **words)
        set_due(e, 0, 1), tim(e, 500, has="HoldOnSent}; sent 188007"), look(e, has="due 5500 limit 5000 length 2 hold-on-sent" if words else "due 0 length 2 hold-on-sent")
        set_due(e, 8, 0), tim(e, 500, has="HoldOnSent}; sent 188007"), set_due(e, 8, 1), tim(e, 500, has="ResultWaitEnds}; sent 20800708")
        for state, has in (("IResultRespWait", "ResultAcked}; sent 180007"), ("IWaitTimeout", "TimeoutEnds}"), ("RInvokeRespWait1", "InvokeAcked}; sent 188007"), ("RInvokeRespWait2", "HoldOnSent}; sent 188007"),
                           ("RResultRespWait", "ResultResent}; sent 178007DDEE"), ("RWaitTimeout", "TimeoutEnds}")):
            e, role = reach(state, **words)
            set_due(e, 10 if role else 18, 1), tim(e, 500, has=has), look(e)
    title("a made-up table without the mode: the row that stops the timer ends a limit in force too, and so does one that starts A")
    e, role = reach("IResultWait2")
    set_due(e, 0, 9), rcv(e, 400, 5, "188007", has="HeldOn}"), look(e, has="due 0 length 2 HoldOn")
    e, role = reach("RInvokeRespWait2", up=1)
    set_due(e, 1, 9), tim(e, 500, has="UserAwaited}"), look(e, has="AEC 1 due 1500 length 2 user-ack")


def set_due(e, flags, limit):
    """The record at place 0 is due from 256 on, with these flags and this limit in force."""
    for at, octet in zip(range(632, 640), (0, 1, 0, 0, 0, 0, 0, 0)):
        if ends[e].octets[at] != octet:
            put(e, at, octet)
    put(e, 630, flags), put(e, 644, limit % 256), put(e, 645, 0)


def limits_refused():
    title("number 10: a limit of 0 or over 86,400,000 with the mode on, one with it off, a mode that isn't built, words 24 to 31; nothing has changed")
    pair()
    for modes, limit in ((1, 0), (1, 86400001), (1, 2 ** 32), (1, 2 ** 32 + 5000), (1, 2 ** 64 - 1), (0, 1), (0, 5000), (0, 86400000), (2, 0), (2, 5000), (3, 5000), (4, 0), (4, 5000), (8, 0), (8, 5000), (256, 0), (257, 5000), (2 ** 64 - 1, 5000)):
        sets(_22=modes, _23=limit), fresh(R, 2, 7, has="refused 10")
    for word in range(24, 32):
        sets(**{"_%d" % word: 1}, **LIMIT), fresh(R, 2, 7, has="refused 10")
    look(R, has=": clock 0, next TID 7, TIDnew due")
    for modes, limit, has in ((0, 0, "TIDnew due"), (1, 1, "waiting limit 1"), (1, 86400000, "waiting limit 86400000")):
        sets(_22=modes, _23=limit), fresh(R, 2, 7), look(R, has=has)
    title("number 1: modes and limit of a table that don't go together, and a record's limit out of range, in every state")
    pair(**LIMIT)
    for at, value in ((96, 0), (96, 2), (96, 3), (95, 6), (95, 255)):
        was = ends[R].octets[at]
        put(R, at, value), every_call("refused 1"), due(R, has="refused 1"), put(R, at, was)
    put(R, 92, 0), put(R, 93, 0), tim(R, 10, has="refused 1"), put(R, 92, 1), tim(R, 10, has="; none due")
    for state in STATES[1:]:
        e, role = reach(state)
        for at, octet in zip(range(644, 648), (0, 92, 38, 5)):
            put(e, at, octet)
        tim(e, 400, has="; none due"), put(e, 644, 1), tim(e, 400, has="refused 1"), put(e, 644, 0), put(e, 647, 6), tim(e, 400, has="refused 1"), put(e, 647, 5), due(e, has=": ok")


def firings_bounded():
    title("firings alone free a record within 1 + max(RCR_MAX, AEC_MAX, 1) of them; RCR_MAX + 1, AEC_MAX + 1 and 2 are attained")
    for rcr_max, aec_max in ((0, 0), (8, 0), (0, 8), (2, 3)):
        bound = 1 + max(rcr_max, aec_max, 1)
        runs = [("IResultWait1", 0, rcr_max + 1), ("IResultWait2", 1, rcr_max + 1), ("RResultRespWait", 0, rcr_max + 1), ("IResultRespWait", 1, aec_max + 1), ("RInvokeRespWait1", 1, aec_max + 1), ("RInvokeRespWait2", 1, aec_max + 1),
                ("IResultRespWait", 0, 2), ("RInvokeRespWait1", 0, 2), ("RInvokeRespWait2", 0, 2), ("RResultWait", 0, 2), ("RTidokWait1", 0, 1), ("RTidokWait2", 0, 1), ("IWaitTimeout", 0, 1), ("RWaitTimeout", 0, 1)]
        for state, up, times in runs:
            e, role = reach(state, up=up, _0=rcr_max, _1=aec_max, **LIMIT)
            assert fired_until_free(e) == times <= bound, (state, up)
        assert bound == max(times for _, _, times in runs)


def fired_until_free(e):
    """Fires the one live record at its own deadlines until it is free; how often."""
    times = 0
    while (record := Table(ends[e].octets[:table_bytes(ends[e].records)]).records[0]).live():
        tim(e, record.deadline, has="; fired ")
        times += 1
    due(e, has="; none")
    return times


# ---- 02, L4: unknown items

IDENTITY, SPARE = 624 + 24, 624 + 29  # of the record at place 0, docs/TABLE.md


def unknown_items():
    title("02, L4: the reading's examples. Options and packet numbers are known; the Ack names the first item that isn't, before exit information, and so does its repeat")
    as_read(2, 5)
    rcv(G, 0, 7, "8E004011 9109 9A0102 7902 EE", has="; sent 1C8040; unknown 15 at 9"), look(G, has="RTidokWait1 7/64 RCR 0 AEC 0 due 0 length 1 user-ack unknown 15"), rcv(G, 1, 7, "1C0040", has="store 0+1 EE")
    ans(G, 2, 1, 7, 64, "AABB", has="; sent 988040811F0AAABB"), rcv(G, 3, 7, "8F004011 30", has="; sent 998040811F0AAABB; unknown 6 at 4"), rcv(G, 4, 7, "1D0040", has="; sent 998040811F0AAABB")
    look(G, has="RWaitTimeout 7/64 RCR 0 AEC 0 due 202 length 1 user-ack unknown 15 exit AABB")
    title("the same by the timer, class 1; the hold-on of class 2 and its repeat carry it, the Result doesn't; an unknown item in the long form")
    as_read(2, 5)
    rcv(G, 0, 7, "8E004101 30", has="; sent 1C8041; unknown 6 at 4"), rcv(G, 0, 7, "1C0041"), tim(G, 100, has="InvokeAcked}; sent 9880410116")
    rcv(G, 100, 7, "8E004202 7D00 EE", has="{Free Invoke Valid2}; invoke responder 7/66 class 2 datagram 6+1 EE; unknown 15 at 4"), tim(G, 200, has="HoldOnSent}; sent 988042011F")
    rcv(G, 210, 7, "0F004202", has="HoldOnRepeated}; sent 998042011F"), res(G, 220, 1, 7, 66, "DD", has="; sent 168042DD")
    title("the initiator: of a hold-on nothing is kept, of the Result that it takes the identity is; a later one changes nothing")
    as_read(2, 5)
    req(R, 0, 7, 2), rcv(R, 1, 7, "988005 30", has="HeldOn}; confirm initiator 7/5 no data; unknown 6 at 3"), look(R, has="due 0 length 0 HoldOn TIDnew")
    rcv(R, 2, 7, "968005 8A0102 4B030405 DD", has="ResultTaken}; result initiator 7/5 datagram 10+1 DD; unknown 9 at 6"), rcv(R, 3, 7, "978005 50", has="Ignored}; unknown 10 at 3"), look(R, has="HoldOn TIDnew unknown 9")
    ans(R, 4, 0, 7, 5, "AABBCCDD", has="; sent 98000581190C04AABBCCDD"), rcv(R, 5, 7, "178005", has="; sent 99000581190C04AABBCCDD")
    title("what is ignored or answered with an Abort is told too: another direction, no record, no TIDve of ours, class 0; what is malformed isn't")
    as_read(2, 5)
    rcv(G, 0, 7, "8E900502 30", has="{Nobody}; unknown 6 at 4"), rcv(G, 0, 7, "980005 30", has="Ignored}; unknown 6 at 3"), rcv(G, 0, 7, "980005 3001"), assert_line("")
    rcv(G, 0, 7, "9C9005 30", has="; sent 20100502; unknown 6 at 3"), rcv(G, 0, 7, "8E000500 30", has="; invoke responder 7/5 datagram 5+0; unknown 6 at 4"), look(G, has=": clock 0, next TID 5, TIDnew due")
    identities()
    unknown_and_told()
    unknown_and_kept()
    acks_with_an_error_item()
    identities_made_up()


def identities():
    title("every identity, in the short and in the long form, in an Invoke that opens a record: 0 to 5 are known, 6 to 15 aren't, whatever they hold")
    for long in (0, 4):
        cached(6)
        for k in range(16):
            now, tid, known = 2000 * k, 7 + k, k < 6
            item = bytes([8 * k + long + 3, 2, 0xAA, 0xBB] if long else [8 * k])
            rcv(G, now, 5, "8E00%02X01" % tid, item, has="Valid1}; invoke responder 5/%d class 1 datagram %d+0" % (tid, 4 + len(item))), assert_told("" if known else "; unknown %d at 4" % k)
            tim(G, now + 1000, has="; sent 1880%02X;" % tid if known else "; sent 9880%02X01%02X;" % (tid, 16 + k)), abo(G, now + 1000, 1, 5, tid, 0)


def assert_told(end):
    """The line before ends with this, but for a cost, and tells of no unknown item else."""
    told = expected[-1].split("; cost ")[0]
    assert told.endswith(end) and ("; unknown" in told) == bool(end), expected[-1]


def unknown_and_told():
    title("of several unknown items the first is told: after known ones, before them, between them; sixteen items that are all unknown")
    for items, has in (("B0 38", "6 at 4"), ("B8 30", "7 at 4"), ("8901 90 B0 08", "6 at 7"), ("FC03AABBCC B0 0A1122", "15 at 4"), ("9C01AA 80 A8 B1CC 7F00", "6 at 9"), ("".join("%02X" % (128 + 8 * k) for k in range(15, 0, -1)) + "00", "15 at 4"),
                       ("80 88 90 98 A0 A8 80 88 90 98 A0 A8 80 88 90 78", "15 at 19"), ("B0" * 15 + "30", "6 at 4"), ("FF00" * 15 + "7B010203", "15 at 4")):
        cached(6)
        rcv(G, 10, 5, "8E000701 " + items, has="Valid1}"), assert_told("; unknown " + has)
        tim(G, 1010, has="; sent 98800701%02X" % (16 + int(has.split()[0])))
    title("an unknown item that is cut, a seventeenth, and octets after an Ack's: malformed first, and nothing is told or kept")
    for text, row in (("8E000701 79", "Malformed}; sent 20800701"), ("8E000701 7C", "Malformed}; sent 20800701"), ("8E000701 B0 7C02AA", "Malformed}; sent 20800701"), ("8E000701 B0", "Malformed}; sent 20800701"),
                      ("8E000703 30", "Malformed}; sent 20800701"), ("8E000701" + "B0" * 16 + "30", "Malformed}; sent 20800701"), ("980007 30 00", "Ignored}"), ("B80007 02 30", "Ignored}"), ("A20007 01 30", "Ignored}"), ("C00007 30", "Ignored}"), ("98", "{Nobody}"), ("9800", "{Nobody}")):
        pair()
        rcv(G, 10, 5, text, has=row), assert_told(""), look(G, has=": clock 10, next TID 7")
    for text in ("968007 7C02AA", "988007 30 00", "B88007 01", "A28007 01 30"):
        pair()
        req(R, 10, 5, 2), rcv(R, 20, 5, text, has="{IResultWait2 MalformedPdu Malformed}; sent 20000701; abort initiator 5/7 reason 1 no data"), assert_told("")
    title("PDUs of every type without a record: each tells its first unknown item, and none leaves anything")
    pair(records=1)
    for text, at in (("980005 30", 3), ("998005 30", 3), ("9C0005 30", 3), ("9D8005 30", 3), ("A00005 08 30", 4), ("A18005 08 30", 4), ("968005 30", 3), ("978005 30 AA", 3), ("948005 30", 3), ("958005 30", 3), ("960005 30", 3), ("970005 30", 3), ("8E800501 30", 4), ("8F800502 30", 4),
                     ("AE000501 30", 4), ("AE800501 30", 4), ("B6000501 30", 4), ("B6800501 30", 4), ("B8000500 30", 4), ("B8800502AABB 30", 6), ("B8000503AABBCC 88 30", 8), ("8E000500 30", 4)):
        rcv(G, 10, 5, text), assert_told("; unknown 6 at %d" % at)
    look(G, has=": clock 10, next TID 7, TIDnew due")
    title("an Invoke that a test stops, or a full table, is told and not kept: version, TTR, length, no free record")
    pair(records=1)
    rcv(G, 10, 5, "8E000741 30", has="WrongVersion}; sent 20800706; unknown 6 at 4"), rcv(G, 10, 5, "8C000702 30", has="Unsupported}; sent 20800704; unknown 6 at 4"), rcv(G, 10, 5, "8E000702 38", [0] * 1025, has="TooLong}; sent 20800707; unknown 7 at 4")
    rcv(G, 20, 5, "0E000701", has="; sent 1C8007"), rcv(G, 30, 5, "8E000801 30", has="{Free Invoke Ignored}; unknown 6 at 4"), rcv(G, 40, 5, "1C0007", has="Verified1}"), tim(G, 1040, has="; sent 188007;")
    title("with a live record in every state: what has no row is told as well, and the record keeps what it had")
    for state in STATES[1:]:
        e, role = reach(state)
        look(e)
        for text, at in (("98t07 30", 3), ("99t07 38", 3)) * (state not in ("IResultWait1", "IResultWait2", "RResultRespWait")) + (("AEt0701 78", 4), ("B6t0701 B0 38", 4), ("B8t0700 30", 4), ("8E800701 30", 4), ("960007 30", 3)):
            rcv(e, 400, 5, text.replace("t", "80" if role == 0 else "00"), has="Ignored}" if "t" in text else "{Nobody}")
            assert "; unknown" in expected[-1] and "{0:" not in expected[-1]
        look(e), assert_told("")
    title("with every row that a received PDU has: told beside what is sent and shown")
    pair()
    req(R, 10, 5, 1), rcv(R, 20, 5, "9C8007 30", has="TidokSent}; sent 1C0007; unknown 6 at 3"), rcv(R, 30, 5, "9D8007 38", has="; sent 1D0007; unknown 7 at 3"), rcv(R, 40, 5, "988007 B0 0A1122", has="Confirmed}; confirm initiator 5/7 datagram 5+2 1122; unknown 6 at 3")
    req(R, 50, 5, 2), rcv(R, 60, 5, "A08008 05 30", has="PeerAborts}; abort initiator 5/8 reason 5 no data; unknown 6 at 4"), req(R, 70, 5, 2), rcv(R, 80, 5, "948009 30", has="ResultUnsupported}; sent 20000904; abort initiator 5/9 reason 4 no data; unknown 6 at 3")
    rcv(G, 10, 5, "0E000702"), rcv(G, 20, 5, "8F000702 30", has="TidveRepeated}; sent 1D8007; unknown 6 at 4"), rcv(G, 30, 5, "9C0007 38", has="Verified2}; invoke responder 5/7 class 2 store 0+0; unknown 7 at 3")
    res(G, 40, 1, 5, 7, "DD", has="; sent 168007DD"), rcv(G, 50, 5, "980007 B0 09AA", has="Confirmed}; confirm responder 5/7 datagram 5+1 AA; unknown 6 at 3"), tim(G, 60, has="; none due")


def unknown_and_kept():
    title("the Invoke that opened the record counts, shown at once, verified or with TIDnew, and none after it; one that had none stays so")
    for cls in (1, 2):
        cached(6)
        rcv(G, 10, 5, "8E00070%d 38" % cls, has="Valid%d}" % cls), rcv(G, 20, 5, "8F00070%d 30" % cls, has="Ignored}; unknown 6 at 4"), rcv(G, 20, 5, "8E00070%d 30" % cls, has="Ignored}; unknown 6 at 4"), tim(G, 1010, has="; sent 9880070117;")
        for fourth, name in (("0%d" % cls, "ToVerify%d}" % cls), ("2%d" % cls, "Restarted%d}" % cls)):
            pair()
            rcv(G, 10, 5, "8E0007%s 38 EE" % fourth, has=name + "; sent 1C8007"), rcv(G, 20, 5, "8F0007%s 30" % fourth, has="; sent 1D8007; unknown 6 at 4"), rcv(G, 30, 5, "9C0007 30", has="Verified%d}; invoke responder 5/7 class %d store 0+1 EE" % (cls, cls)), tim(G, 1030, has="; sent 9880070117;")
            pair()
            rcv(G, 10, 5, "8E0007%s 10" % fourth, has=name), assert_told(""), rcv(G, 20, 5, "8F0007%s 30" % fourth, has="; sent 1D8007; unknown 6 at 4"), rcv(G, 30, 5, "9C0007 30"), look(G, has="length 0"), tim(G, 1030, has="; sent 188007;")
    title("the Result that is taken counts, held on or not, and none before or after it; one that has none leaves none")
    for hold_on, row in ((["988007 30"], "ResultTaken}; result"), ([], "ResultConfirms}; confirm initiator 5/7 no data; result")):
        for text, has, sent in (("968007 38", "; unknown 7 at 3", "9800070117"), ("978007 78 AA", "; unknown 15 at 3", "980007011F"), ("968007 8A1122 28", "", "180007"), ("168007 30", "", "180007")):
            pair()
            req(R, 10, 5, 2)
            for ack in hold_on:
                rcv(R, 20, 5, ack, has="HeldOn}")
            rcv(R, 30, 5, text, has=row), assert_told(has), rcv(R, 40, 5, "968007 30", has="Ignored}; unknown 6 at 3"), tim(R, 1030, has="ResultAcked}; sent %s;" % sent)
    title("a record is freed with its identity: the next one at its place has none")
    cached(6)
    rcv(G, 10, 5, "8E000701 30", has="Valid1}"), abo(G, 20, 1, 5, 7, 0), rcv(G, 30, 5, "0E000801", has="Valid1}"), tim(G, 1030, has="; sent 188008;")


def acks_with_an_error_item():
    title("exit information of 0 to 4 and 128 bytes after the Error item, from either end, and the same again; the longest Ack has 135 octets")
    for n, items in ((0, "0116"), (1, "811609"), (2, "81160A"), (3, "81160B"), (4, "81160C04"), (128, "81160C80")):
        exit_info = octets([0x61] * n).hex()
        cached(6)
        rcv(G, 10, 5, "8E000711 30"), ans(G, 20, 1, 5, 7, exit_info, has="InvokeAnswered}; sent 988007" + items), assert_longest(n)
        rcv(G, 30, 5, "0F000711", has="InvokeSeenAgain}; sent 998007" + items), rcv(G, 40, 5, "1D0007", has="TidokSeenAgain}; sent 998007" + items), look(G, has="user-ack unknown 6" + " exit 61" * bool(n))
        pair()
        req(R, 10, 5, 2, 1), rcv(R, 20, 5, "968007 30"), ans(R, 30, 0, 5, 7, exit_info, has="ResultAnswered}; sent 980007" + items), assert_longest(n), rcv(R, 40, 5, "178007", has="ResultSeenAgain}; sent 990007" + items), rcv(R, 50, 5, "158007", has="; sent 990007" + items)
    title("the other end reads it: the confirmation's data is still the first Info item, and an Error item is known")
    pair()
    put(R, 97, 0), put(G, 112 + 10, 7), req(R, 10, 5, 1, has="; sent 0E000701")
    rcv(G, 20, 5, "8E000701 30", has="Valid1}"), ans(G, 30, 1, 5, 7, "AABB", has="; sent 98800781160AAABB"), get(R, 40, 5, has="Confirmed}; confirm initiator 5/7 datagram 6+2 AABB"), assert_told("")
    req(R, 50, 5, 2, has="; tid 8"), rcv(G, 50, 5, "8E000802 78", has="Valid2}"), tim(G, 1050, has="HoldOnSent}; sent 988008011F"), get(R, 1060, 5, has="HeldOn}; confirm initiator 5/8 no data"), assert_told("")
    res(G, 1070, 1, 5, 8, "DD", has="; sent 168008DD"), rcv(R, 1080, 5, "968008 B0 38 DD", has="ResultTaken}"), ans(R, 1090, 0, 5, 8, "EE", has="; sent 980008811609EE"), get(G, 1100, 5, has="Confirmed}; confirm responder 5/8 datagram 6+1 EE"), assert_told("")
    title("hold-on by either row, with U/P or without, repeated and then overtaken by the Result; without a hold-on it is never sent")
    cached(6)
    rcv(G, 10, 5, "8E000712 30"), ans(G, 20, 1, 5, 7, has="UserWorks}"), rcv(G, 30, 5, "0F000712", has="Ignored}"), tim(G, 1020, has="{RResultWait Timer HoldOnSent}; sent 9880070116"), rcv(G, 1030, 5, "0F000712", has="HoldOnRepeated}; sent 9980070116"), rcv(G, 1040, 5, "8F000712 38", has="; sent 9980070116; unknown 7 at 4")
    res(G, 1050, 1, 5, 7, "DD", has="; sent 168007DD"), tim(G, 4050, has="; sent 178007DD"), look(G, has="unknown 6"), rcv(G, 4060, 5, "180007", has="Confirmed}")
    cached(6)
    rcv(G, 10, 5, "8E000702 30"), res(G, 20, 1, 5, 7, "DD", has="; sent 168007DD"), tim(G, 3020, has="; sent 178007DD")
    title("with the waiting limit on: hold-on with the Error item, again, and the Abort at the limit's end without it")
    pair(**LIMIT)
    rcv(G, 0, 5, "8E000702 30", has="; sent 1C8007; unknown 6 at 4"), rcv(G, 10, 5, "1C0007"), tim(G, 1010, has="; sent 9880070116"), rcv(G, 1020, 5, "0F000702", has="; sent 9980070116"), tim(G, 6010, has="ResultWaitEnds}; sent 20800708;")


def assert_longest(exit_length):
    """With 128 octets of exit information the Ack sent last has 135 octets."""
    assert exit_length < 128 or len(ends[int(lines[-1].split()[1])].last) == 135


def identities_made_up():
    title("a made-up table: an identity in any state; only plain Acks carry it, and a Result without an unknown item takes it away")
    for state, sends in (("IResultWait1", [("t", 2100, "0F000721AABB")]), ("IResultWait2", [("1C8007", 400, "1C0007"), ("t", 3600, "1D0007")]), ("IResultRespWait", [("t", 1200, "98000701%02X")]), ("IWaitTimeout", [("178007", 400, "99000701%02X")]),
                         ("RTidokWait1", [("0F000701", 400, "1D8007"), ("1C0007", 500, ""), ("t", 1500, "98800701%02X")]), ("RTidokWait2", [("0F000702", 400, "1D8007"), ("1C0007", 500, ""), ("t", 1500, "98800701%02X")]),
                         ("RInvokeRespWait1", [("t", 1200, "98800701%02X"), ("0F000701", 1300, "99800701%02X")]), ("RInvokeRespWait2", [("t", 1200, "98800701%02X"), ("0F000702", 1300, "99800701%02X")]), ("RResultWait", [("t", 1300, "98800701%02X"), ("0F000702", 1400, "99800701%02X")]),
                         ("RResultRespWait", [("t", 3300, "178007DDEE")]), ("RWaitTimeout", [("0F000701", 400, "99800701%02X"), ("1D0007", 500, "99800701%02X")])):
        for identity in (6, 15):
            e, role = reach(state)
            put(e, IDENTITY, identity), look(e, has=" unknown %d" % identity)
            for event, time, sent in sends:
                has = "; sent " + (sent % (16 + identity) if "%" in sent else sent) if sent else "Verified"
                tim(e, time, has=has) if event == "t" else rcv(e, time, 5, event, has=has)
            look(e, has=" unknown %d" % identity)
            rcv(e, 5000, 5, "20%s07 01" % ("80" if role == 0 else "00"), has="PeerAborts}; abort"), look(e), assert_told("")
    for hold_on in (0, 2):
        e, role = reach("IResultWait2")
        put(e, IDENTITY, 9), put(e, 630, hold_on), rcv(e, 400, 5, "168007 30", has="ResultTaken}" if hold_on else "ResultConfirms}"), look(e, has="due 1400 length 2"), assert_told(""), tim(e, 1400, has="; sent 180007;")
    title("a made-up table: exit information in a record that sends a hold-on stays unsent, with the Error item and without it")
    for identity, sent in ((0, "; sent 188007"), (6, "; sent 9880070116")):
        e, role = reach("RInvokeRespWait2")
        put(e, 631, 2), put(e, IDENTITY, identity), tim(e, 1200, has="HoldOnSent}" + sent), rcv(e, 1300, 5, "0F000702", has="HoldOnRepeated}; sent " + ("9980070116" if identity else "198007"))
    title("number 1: an identity that is known or over 15, in every state; 6 to 15 are good, also where no row has put them")
    for state in STATES[1:]:
        e, role = reach(state)
        for identity in (0, 1, 5, 6, 15, 16, 128, 255):
            put(e, IDENTITY, identity), tim(e, 400, has="; none due" if identity in (0, 6, 15) else "refused 1"), due(e, has=": ok" if identity in (0, 6, 15) else "refused 1")
        put(e, IDENTITY, 0), put(e, IDENTITY - 1, 6), tim(e, 400, has="refused 1"), put(e, IDENTITY - 1, 0), put(e, SPARE, 6), tim(e, 400, has="refused 1")
    title("a free record with an identity isn't zero: number 1")
    pair()
    put(R, IDENTITY, 6), every_call("refused 1"), due(R, has="refused 1"), put(R, IDENTITY, 0), tim(R, 10, has="; none due")


# ---- 02, L11: the cost

def put_cost(e, place, octets):
    """Makes this what the record at the place has cost: the octets of docs/TABLE.md."""
    for at, octet in enumerate(octets.to_bytes(4, "little"), record_at(place) + 25):
        if ends[e].octets[at] != octet:
            put(e, at, octet)


def told_cost(octets, ended=""):
    """The line before tells this cost, and that the transaction ended or not; None: no cost."""
    assert expected[-1].endswith("; cost %d%s" % (octets, ended)) if octets is not None else "cost" not in expected[-1], expected[-1]


ENDED = ", ended"


def costs():
    title("02, L11: the reading's example. Invokes and TIDoks are counted, first and repeated, up to the Result; what is ignored tells the cost too, and Acks leave it")
    as_read(2, 5)
    req(R, 0, 7, 2, 0, "010203", has="; sent 0E000522010203; tid 5"), told_cost(7), tim(R, 150, has="; sent 0F000522010203"), told_cost(14)
    rcv(R, 200, 7, "1C8005", has="TidokSent}; sent 1C0005"), told_cost(17), rcv(R, 210, 7, "1C8005", has="{IResultWait2 TidAck Ignored}"), told_cost(17)
    rcv(R, 220, 7, "188005", has="HeldOn}"), told_cost(17), rcv(R, 230, 7, "38800500", has="{IResultWait2 Segmented Ignored}"), told_cost(17), rcv(R, 230, 7, "0E800502", has="{Nobody}"), told_cost(None)
    look(R, has="HoldOn TIDok-sent TIDnew cost 17"), rcv(R, 240, 7, "168005 DD", has="ResultTaken}"), told_cost(17)
    ans(R, 250, 0, 7, 5, "AA", has="; sent 98000509AA"), told_cost(17), rcv(R, 260, 7, "178005 DD", has="ResultSeenAgain}; sent 99000509AA"), told_cost(17), look(R, has="exit AA cost 17")
    tim(R, 450, has="TimeoutEnds}"), assert_line(" {0: IWaitTimeout -> Free}; fired initiator 7/5; cost 17, ended"), look(R, has=": clock 450, next TID 6")
    title("class 1: confirmed, and aborted by its user; with RCR_MAX 1 two Invokes attain the bound")
    as_read(2, 6)
    req(R, 0, 7, 1, 0, "01"), told_cost(5), rcv(R, 1, 7, "188006", has="Confirmed}"), assert_line(" {0: IResultWait1 -> Free}; confirm initiator 7/6 no data; cost 5, ended")
    req(R, 2, 7, 1), told_cost(4), abo(R, 3, 0, 7, 7, 9), assert_line(" {0: IResultWait1 -> Free}; sent 21000709; cost 4, ended")
    pair(_0=1)
    req(R, 0, 7, 1, 0, "0102"), told_cost(6), tim(R, 2000, has="; sent 0F0007210102"), told_cost(12), tim(R, 4100, has="GivenUp}"), told_cost(12, ENDED)
    costs_of_nobody()
    costs_at_the_end()
    costs_after_the_result()
    costs_in_a_table()
    costs_made_up()
    costs_out_of_range()
    costs_salvaged()


def costs_of_nobody():
    title("who names no initiator's record is told no cost: class 0, PDUs of one and two octets, of the wrong direction, of another peer or TID, no record due")
    pair()
    req(R, 10, 5, 0, 0, "AABB", has="; tid 7"), told_cost(None), req(R, 10, 5, 2, 0, "AA", has="; tid 8"), told_cost(5)
    for peer, text in ((5, "18"), (5, "1880"), (5, "FFFF"), (5, "0E800802"), (5, "0E8008"), (5, "8F800802 30"), (5, "160008"), (5, "960008"), (6, "188008"), (5, "188009"), (5, "1C8009"), (5, "008009"), (5, "180008"), (6, "1C8008")):
        rcv(R, 20, peer, text), told_cost(None)
    tim(R, 20, has="; none due"), told_cost(None), due(R, has="; 3010 initiator 5/8"), told_cost(None), look(R, has="cost 5")
    title("nor is who names a responder's record, in every state and whatever it sends; an initiator's of the same peer and TID keeps its own")
    for state in STATES[5:]:
        e, role = reach(state)
        for text in ("0E000701", "0F000702", "180007", "1D0007", "380007 00"):
            rcv(e, 400, 5, text), told_cost(None)
        e, role = reach(state)
        tim(e, 20000), told_cost(None), look(e), told_cost(None)
        e, role = reach(state)
        rcv(e, 400, 5, "200007 01"), told_cost(None)
        e, role = reach(state)
        rcv(e, 400, 5, "180007 00"), told_cost(None), ans(e, 400, role, 5, 7), res(e, 400, role, 5, 7), abo(e, 400, role, 5, 7, 0), told_cost(None)
    pair()
    req(R, 10, 5, 2, 0, "AA"), told_cost(5), rcv(R, 20, 5, "0E000702 BB", has="; sent 1C8007"), told_cost(None), rcv(R, 30, 5, "1C0007", has="Verified2}"), told_cost(None), res(R, 40, 1, 5, 7, "CC", has="; sent 168007CC"), told_cost(None)
    rcv(R, 50, 5, "1C8007", has="; sent 1C0007"), told_cost(8), rcv(R, 60, 5, "180007", has="{RResultRespWait PlainAck Confirmed}"), told_cost(None), look(R, has="record 0 IResultWait2 5/7"), told_in_look(8)


def told_in_look(octets):
    assert expected[-1].endswith(" cost %d" % octets), expected[-1]


def costs_at_the_end():
    title("every end of an initiator's record tells what it had cost, the Abort PDU aside: abort row in each state, Abort 4, RCR_MAX, AEC_MAX, end of W")
    for state in STATES[1:5]:
        for text, has in (("208007 05", "PeerAborts}"), ("218007 C8", "PeerAborts}"), ("188007 00", "Malformed}; sent 20000701"), ("968007", "Malformed}; sent 20000701")):
            e, role = reach(state)
            rcv(e, 400, 5, text, has=has), told_cost(6, ENDED), rcv(e, 400, 5, text), told_cost(None)
        e, role = reach(state)
        abo(e, 400, role, 5, 7, 255, has="UserAborts}; sent 210007FF"), told_cost(6, ENDED)
    for text in ("148007", "158007 AA"):
        e, role = reach("IResultWait2")
        rcv(e, 400, 5, text, has="ResultUnsupported}; sent 20000704"), told_cost(6, ENDED)
        e, role = reach("IResultWait1")
        rcv(e, 400, 5, text, has="Ignored}"), told_cost(6), rcv(e, 400, 5, "198007", has="Confirmed}"), told_cost(6, ENDED)
    for cls in (1, 2):
        pair(_0=0)
        req(R, 10, 5, cls, 0, "AABB"), told_cost(6), rcv(R, 20, 5, "1C8007", has="Ignored}"), told_cost(6), tim(R, 5000, has="GivenUp}"), told_cost(6, ENDED)
    e, role = reach("IResultRespWait", up=1)
    fires(e, role, has="UserAwaited}"), told_cost(6), fires(e, role, has="UserAwaited}"), told_cost(6), fires(e, role, has="UserSilent}; sent 20000708"), told_cost(6, ENDED)
    e, role = reach("IWaitTimeout")
    fires(e, role, has="TimeoutEnds}"), told_cost(6, ENDED)
    title("the waiting limit: held on, the wait's end tells what it cost; so does the end after a TIDve, whose TIDok is counted")
    held_on()
    told_after(5010, 4)
    held_on()
    rcv(R, 3000, 7, "1C8005", has="; sent 1C0005"), told_cost(7), tim(R, 3160, has="; sent 1D0005"), told_cost(10), rcv(R, 3170, 7, "1D8005", has="Ignored}"), told_cost(10), told_after(3330, 10)


def told_after(time, octets):
    """The firing at this time ends the one record with an abort and tells this cost."""
    tim(R, time, has="; abort initiator 7/5 reason 8"), told_cost(octets, ENDED)


def costs_after_the_result():
    title("the cost stands still after the Result: last Ack by the timer or with the longest exit information, repeated, with an Error item too")
    for exit_info, item in (("", ""), ("A1" * 128, ""), ("A1", " 30")):
        pair()
        req(R, 10, 5, 2, 1, "AABB"), tim(R, 3010), told_cost(12), rcv(R, 3020, 5, "%s8007%s" % ("96" if item else "16", item)), told_cost(12), rcv(R, 3030, 5, "1C8007", has="Ignored}"), told_cost(12)
        ans(R, 3040, 0, 5, 7, exit_info, has="ResultAnswered}"), told_cost(12), rcv(R, 3050, 5, "178007", has="ResultSeenAgain}"), told_cost(12), rcv(R, 3060, 5, "158007"), told_cost(12), tim(R, 8040, has="TimeoutEnds}"), told_cost(12, ENDED)
    pair()
    req(R, 10, 5, 2), rcv(R, 20, 5, "168007"), told_cost(4), tim(R, 1020, has="ResultAcked}; sent 180007"), told_cost(4), fir(R, 6020, 0, 5, 7, has="TimeoutEnds}"), told_cost(4, ENDED)
    title("a first contact between the two ends, class 1 and 2: an Invoke and a TIDok")
    for cls in (1, 2):
        first_contact(cls)
        (ans if cls == 1 else res)(G, 140, 1, 5, 7, "77"), told_cost(None), get(R, 150, 5), told_cost(9, ENDED if cls == 1 else "")


def costs_in_a_table():
    title("each request has a cost of its own, whichever is named, fired or ended; a place that is used again begins anew")
    pair(records=3)
    req(R, 10, 5, 2, 0, "AA"), told_cost(5), req(R, 20, 6, 1, 0, "BBBB"), told_cost(6), req(R, 30, 7, 2, 1), told_cost(4), tim(R, 2020, has="fired initiator 6/8"), told_cost(12), rcv(R, 2030, 5, "1C8007"), told_cost(8), fir(R, 9000, 0, 7, 9), told_cost(8)
    rcv(R, 9010, 5, "188007", has="HeldOn}"), told_cost(8), rcv(R, 9020, 6, "188008", has="Confirmed}"), told_cost(12, ENDED), req(R, 9030, 6, 2), told_cost(4), look(R, has=["record 0 IResultWait2 5/7", "record 1 IResultWait2 6/10", "record 2 IResultWait2 7/9"])
    title("a refused call tells nothing, and the record keeps its cost")
    pair()
    req(R, 10, 5, 1, 0, "AA"), ans(R, 20, 0, 5, 7, has="refused 9"), told_cost(None), res(R, 20, 0, 5, 7, has="refused 9"), told_cost(None), fir(R, 20, 0, 5, 7, has="refused 9"), told_cost(None), req(R, 9, 5, 1, has="refused 2"), told_cost(None), look(R, has="length 1 TIDnew cost 5")
    title("the bound, (1 + RCR_MAX) times (4 + n): attained by Invokes alone, with 1,024 octets at RCR_MAX 8 too, and not with a TIDok among them")
    for rcr_max, n, bound in ((0, 0, 4), (0, 1024, 1028), (2, 3, 21), (8, 0, 36), (8, 1024, 9252)):
        for cls in (1, 2):
            pair(_0=rcr_max)
            req(R, 0, 5, cls, 0, "5A" * n), told_cost(4 + n)
            for k in range(rcr_max):
                tim(R, 10000 * (k + 1), has="Resent}"), told_cost((2 + k) * (4 + n))
            tim(R, 100000, has="GivenUp}"), told_cost(bound, ENDED)
    pair(_0=2)
    req(R, 0, 5, 1, 0, "AABBCC"), tim(R, 2000), told_cost(14), rcv(R, 2010, 5, "1C8007"), told_cost(17), tim(R, 9000, has="GivenUp}"), told_cost(17, ENDED)


def costs_made_up():
    title("a made-up table: the sum stops at (1 + RCR_MAX) times 1,028, whatever the request has sent")
    for before, after in ((3077, 3083), (3078, 3084), (3079, 3084), (3083, 3084), (3084, 3084)):
        for cls in (1, 2):
            pair(_0=2)
            req(R, 10, 5, cls, 0, "AABB"), put_cost(R, 0, before), rcv(R, 20, 5, "388007 00", has="Ignored}"), told_cost(before), tim(R, 9000, has="; sent 0F00072%dAABB" % cls), told_cost(after), look(R), told_in_look(after)
    for before, after in ((3080, 3083), (3081, 3084), (3082, 3084), (3084, 3084)):
        pair(_0=2)
        req(R, 10, 5, 2), put_cost(R, 0, before), rcv(R, 20, 5, "1C8007", has="; sent 1C0007"), told_cost(after), tim(R, 9000, has="; sent 1D0007"), told_cost(min(after + 3, 3084))
    title("a record that was kept from before there was a cost: it counts from 0, and where it sends no more its report is 0")
    pair()
    req(R, 10, 5, 2, 0, "AA"), put_cost(R, 0, 0), rcv(R, 20, 5, "388007 00", has="Ignored}"), told_cost(None), tim(R, 3010, has="; sent 0F000722AA"), told_cost(5)
    put_cost(R, 0, 0), rcv(R, 3020, 5, "188007", has="HeldOn}"), told_cost(None), abo(R, 3030, 0, 5, 7, 1, has="; sent 21000701"), told_cost(0, ENDED)
    title("a cost that was put there is told as it stands in the states after the Result")
    for state in ("IResultRespWait", "IWaitTimeout"):
        e, role = reach(state)
        put_cost(e, 0, 5140), rcv(e, 400, 5, "188007", has="Ignored}"), told_cost(5140), fires(e, role), told_cost(5140, ENDED if state == "IWaitTimeout" else "")


def costs_out_of_range():
    title("number 1: a cost over (1 + RCR_MAX) times 1,028 in an initiator's record, any in a responder's, in every state; a free record with one isn't zero")
    for state, rcr_max, most in [(state, 4, 5140) for state in STATES[1:]] + [("IResultWait1", 0, 1028), ("IWaitTimeout", 8, 9252)]:
        e, role = reach(state, _0=rcr_max)
        for cost in (0, 1, most, most + 1, 65536, 2 ** 24):
            good = cost <= (most if role == 0 else 0)
            put_cost(e, 0, cost), tim(e, 400, has="; none due" if good else "refused 1")
        due(e, has="refused 1")
    e, role = reach("IResultWait2")
    put_cost(e, 0, 5140), tim(e, 400, has="; none due"), put(e, 10, 3), tim(e, 400, has="refused 1"), put(e, 10, 5), tim(e, 400, has="; none due")
    pair()
    for at in range(25, 29):
        put(R, record_at(0) + at, 1), every_call("refused 1"), due(R, has="refused 1"), put(R, record_at(0) + at, 0)
    tim(R, 10, has="; none due")


def costs_salvaged():
    title("salvage: a cost out of range is reason 1, by the table's own RCR_MAX; a record that stays keeps its cost and goes on telling it")
    for place, cost in ((0, 3085), (1, 2 ** 32 - 1), (2, 1), (3, 3084)):
        six_places()
        put_cost(R, place, cost), salvaged((place, 1))
    six_places()
    put_cost(R, 4, 1), salvaged((4, 2))
    six_places()
    put_cost(R, 0, 3084), put_cost(R, 1, 2057), sal(R, has=": ok; 0 salvaged"), put(R, 10, 1), salvaged((0, 1), (1, 1))
    six_places()
    tim(R, 160, has="fired initiator 7/5"), told_cost(10), fill(R, 1, 255), sal(R, has="; 1 salvaged, place 1 reason 1"), rcv(R, 170, 7, "1C8005", has="; sent 1C0005"), told_cost(13), rcv(R, 180, 7, "168005 DD", has="ResultConfirms}"), told_cost(13)
    req(R, 190, 7, 1, 0, "EE"), told_cost(5), rcv(R, 200, 7, "188007", has="Confirmed}"), told_cost(5, ENDED), ans(R, 210, 0, 7, 5), told_cost(13), tim(R, 410, has="TimeoutEnds}"), told_cost(13, ENDED)


# ---- 02, L12: salvage

def six_places():
    """The reading's example: initiators 7/5 and 7/6 at places 0 and 1, responders 7/5 and 7/6 at 2 and 3, and two free places."""
    as_read(6, 5)
    req(R, 10, 7, 2, 0, "A1"), req(R, 10, 7, 2, 0, "B2"), rcv(R, 10, 7, "0E000502 C3"), rcv(R, 10, 7, "0E000602 D4"), sal(R, has="; 0 salvaged")


def salvaged(*listed):
    """The table was refused with 1; it is salvaged, once for all, and lists these places."""
    due(R, has="refused 1"), sal(R, has="; %d salvaged%s" % (len(listed), "".join(", place %d reason %d" % entry for entry in listed)))
    sal(R, has=": ok; 0 salvaged"), due(R, has=": ok"), look(R)


def salvage():
    title("02, L12: the reading's examples with six places. Copies of place 1 at 4 and 5")
    six_places()
    copy(R, 1, 4), copy(R, 1, 5), salvaged((4, 3), (5, 3))
    title("place 0 overwritten by place 3's octets: the lower place stays, damaged or not")
    six_places()
    copy(R, 3, 0), salvaged((3, 3))
    title("a copy of 2 at 5, and 2 all FFh: a record that is freed doesn't count, so that 5 stays")
    six_places()
    copy(R, 2, 5), fill(R, 2, 255), salvaged((2, 1))
    title("a copy of 1 at 4, place 0 all FFh, one octet of 5 other than its state set: all three reasons, in rising order of place")
    for at in (1, 2, 4, 7, 15, 19, 23, 24, 47, 48, 175):
        six_places()
        copy(R, 1, 4), fill(R, 0, 255), put(R, record_at(5) + at, 1), sal(R, has="; 3 salvaged, place 0 reason 1, place 4 reason 3, place 5 reason 2")
    title("RCR_MAX or AEC_MAX lowered below a record's counter, itself in range: the record goes with reason 1, and it isn't 15")
    six_places()
    tim(R, 160), tim(R, 160), put(R, 10, 0), salvaged((0, 1), (1, 1))
    six_places()
    put(R, record_at(2) + 5, 1), put(R, 11, 0), salvaged((2, 1))
    salvaged_records()
    salvaged_and_on()
    salvage_refused()


def salvaged_records():
    title("a record's fields: in range nothing is changed, just out of range the place goes with reason 1; flags and state in every state")
    edges = [((2, 255), (3, 127), (3, 128)), ((4, 4), (4, 5)), ((5, 2), (5, 3)), ((7, 128), (7, 129)), ((16, 0), (17, 4), (16, 1)), ((47, 0), (47, 1)), ((24, 0), (24, 255))]
    edges += [tuple(zip(range(8, 16), (10 ** 12 + 86400000).to_bytes(8, "little"))) + ((8, 1),), tuple(zip(range(20, 24), (86400000).to_bytes(4, "little"))) + ((20, 1),)]
    for state in STATES[1:]:
        flags = [((6, 15), (6, 31), (6, 32))] if state[0] == "I" else [((6, 15), (6, 16))]
        for steps in (edges if state in ("IResultWait2", "RTidokWait1") else []) + flags + [((0, 12),)]:
            e, role = reach(state)
            for at, value in steps[:-1]:
                put(e, record_at(0) + at, value)
            sal(e, has=": ok; 0 salvaged"), put(e, record_at(0) + steps[-1][0], steps[-1][1])
            sal(e, has="; 1 salvaged, place 0 reason 1"), sal(e, has=": ok; 0 salvaged")
    title("a record whose state is damaged to another one of its role stays, and one of the other role has another name")
    as_read(2, 5)
    req(R, 10, 7, 2), copy(R, 0, 1), put(R, record_at(1), 4), sal(R, has="{1: IWaitTimeout -> Free}; 1 salvaged, place 1 reason 3")
    copy(R, 0, 1), put(R, record_at(1), 11), put(R, record_at(1) + 6, 0), put_cost(R, 1, 0), sal(R, has="; 0 salvaged"), look(R, has="record 1 RWaitTimeout 7/5")
    for at in (1, 2, 3):
        as_read(2, 5)
        req(R, 10, 7, 2), copy(R, 0, 1), put(R, record_at(1) + at, 9), sal(R, has="; 0 salvaged")
    title("a state damaged to 0 is a free record that isn't zero; one that is free and zero but for its state is live and stays")
    as_read(2, 5)
    req(R, 10, 7, 2), put(R, record_at(0), 0), put(R, record_at(1), 1), salvaged((0, 2)), look(R, has="record 1 IResultWait1 0/0 RCR 0 AEC 0 due 0 length 0")
    title("a full table of 48 records: all of one name, all FFh, all free and not zero")
    for damage, has in ((lambda k: put(R, record_at(k), 1), "; 47 salvaged, place 1 reason 3"), (lambda k: fill(R, k, 255), "; 48 salvaged, place 0 reason 1"),
                        (lambda k: put(R, record_at(k) + 175, 7), "; 48 salvaged, place 0 reason 2")):
        pair(records=48)
        for k in range(48):
            damage(k)
        sal(R, 97, has=has), sal(R, 97, has=": ok; 0 salvaged"), req(R, 10, 5, 1, has="; tid 7")


def salvaged_and_on():
    title("a salvaged table goes on: a record that stays has its cell and its counters, one that was freed is nobody's")
    six_places()
    tim(R, 160, has="Resent}; sent 0F000522A1"), fill(R, 1, 255), copy(R, 2, 4), sal(R, has="; 2 salvaged, place 1 reason 1, place 4 reason 3")
    rcv(R, 170, 7, "168006 DD", has="{Free Result Ignored}"), rcv(R, 170, 7, "1C8006", has="UnknownTidve}; sent 20000602"), abo(R, 170, 0, 7, 6, 1, has="refused 8")
    tim(R, 320, has="Resent}; sent 0F000522A1; fired initiator 7/5"), rcv(R, 330, 7, "168005 DD", has="ResultConfirms}"), rcv(R, 330, 7, "1C0005", has="Verified2}; invoke responder 7/5 class 2 store 2048+1 C3")
    req(R, 340, 7, 2, 0, "E5", has="; sent 0E000702E5; tid 7"), look(R, has="record 1 IResultWait2 7/7 RCR 0 AEC 0 due 490 length 1"), rcv(R, 350, 7, "0E000602 D4", has="{RTidokWait2 Invoke Ignored}")
    title("the name of a record that was freed can be used again, also by a new Invoke and a new request")
    as_read(2, 5)
    req(R, 10, 7, 2), put(R, 8, 5), fill(R, 0, 255), salvaged((0, 1)), req(R, 20, 7, 1, has="; tid 5")
    rcv(G, 10, 7, "0E000502"), rcv(G, 10, 7, "1C0005", has="Verified2}"), put(G, record_at(0), 99), sal(G, has="; 1 salvaged, place 0 reason 1"), look(G, has="last of 7 is 5")
    rcv(G, 20, 7, "0E000502", has="ToVerify2}"), rcv(G, 30, 7, "1C0005", has="Verified2}; invoke responder 7/5")
    title("salvage takes no time: the clock stays, and a time that was good before is good after it")
    as_read(2, 5, **LIMIT)
    req(R, 1000, 7, 2), rcv(R, 1010, 7, "188005", has="HeldOn}"), fill(R, 1, 1), salvaged_at(1010), look(R, has=": clock 1010, next TID 6, waiting limit 5000; record 0 IResultWait2 7/5 RCR 0 AEC 0 due 6010 limit 5000")
    tim(R, 1009, has="refused 2"), tim(R, 6010, has="HeldOnWaitEnds}")


def salvaged_at(clock):
    sal(R, has="; 1 salvaged, place 1 reason 1"), look(R, has=": clock %d" % clock)


def salvage_refused():
    title("number 15: each field outside the records just out of range, whatever the records hold; nothing has changed")
    for records_damaged in (False, True):
        as_read(2, 5)
        req(R, 10, 7, 2)
        if records_damaged:
            fill(R, 1, 255)
        for at, value in ((7, 1), (9, 128), (10, 9), (11, 9), (15, 6), (19, 255), (23, 255), (59, 255), (91, 255), (92, 1), (95, 5), (96, 1), (96, 2), (97, 2), (98, 1), (111, 1), (113, 129), (623, 129)):
            was = ends[R].octets[at]
            put(R, at, value), sal(R, has="refused 15"), put(R, at, was)
        sal(R, has="; 1 salvaged, place 1 reason 1" if records_damaged else "; 0 salvaged")
    title("number 1: a size that is none, or fewer than 97 words, whatever else is wrong; 97 words are enough, and further ones stay")
    as_read(2, 5)
    req(R, 10, 7, 2), fill(R, 1, 255)
    for damaged in (False, True):
        put(R, 98, int(damaged))
        for octets_lent in (0, 1, 623, 624, 799, 801, 975, 977, 9248):
            lends(octets_lent, 0, 0, 0, 0), sal(R, has="refused 1")
        lends(976, 0, 0, 0, 0)
        for words in (0, 1, 5, 96):
            sal(R, words, has="refused 1")
        if damaged:
            sal(R, 97, has="refused 15"), sal(R, 98, has="refused 15"), put(R, 98, 0)
    sal(R, 97, has="; 1 salvaged, place 1 reason 1"), sal(R, 120, has="; 0 salvaged"), fill(R, 1, 255), lends(800, 0, 0, 0, 0), sal(R, has="; 0 salvaged"), lends(), sal(R, has="; 1 salvaged, place 1 reason 1")


def refusals():
    title("the fresh-table call: size, then settings and the first TID; 48 records at the most")
    size(0, ": 0"), size(1, ": 800"), size(48, ": 9072"), size(49, ": 0"), size(2 ** 64 - 1, ": 0")
    sets()
    fresh(R, 0, has="refused 1"), fresh(R, 49, has="refused 1"), fresh(R, 48, 32767), fresh(R, 1, 32768, has="refused 10")
    for sizes in ((799, 0, 0, 0, 32), (801, 0, 0, 0, 32), (624, 0, 0, 0, 32), (9248, 0, 0, 0, 32), (0, 0, 0, 0, 32)):
        lends(*sizes), fresh(R, 1, has="refused 1")
    lends(799, 0, 0, 0, 31), fresh(R, 1, 32768, has="refused 1")
    edge("fresh: wrong size and bad setting")
    for n in (31, 33, 0):
        lends(800, 0, 0, 0, n), fresh(R, 1, has="refused 10")
    lends()
    for k, v in ((0, 9), (1, 9), (2, 0), (2, 86400001), (3, 0), (3, 86400001), (4, 0), (12, 0), (12, 86400001), (13, 0), (21, 0), (21, 86400001), (24, 1), (31, 1), (0, 2 ** 64 - 1), (2, 2 ** 32 + 5)):
        sets(**{"_%d" % k: v}), fresh(R, 1, has="refused 10")
    for k, v in ((0, 0), (0, 8), (1, 0), (1, 8), (2, 1), (3, 86400000), (12, 1), (21, 86400000)):
        sets(**{"_%d" % k: v}), fresh(R, 1, 0)
    look(R)
    title("the fresh-table call takes any old contents: live records, cached TIDs, damage")
    pair()
    req(R, 100, 5, 1), rcv(R, 200, 6, "0E000901"), rcv(R, 300, 6, "1C0009"), put(R, 92, 1), put(R, 7, 255), fresh(R, 2, 32767), look(R, has=": clock 0, next TID 32767"), req(R, 0, 5, 1, has="; tid 32767")
    title("number 1 of the engine's calls: store, output, answer or table of the wrong size, whatever else is wrong")
    pair(records=2)
    req(R, 10, 5, 1)
    for sizes in ((975, 2048, 1100, 41, 32), (977, 2048, 1100, 41, 32), (800, 2048, 1100, 41, 32), (624, 0, 1100, 41, 32), (0, 0, 1100, 41, 32), (976, 2047, 1100, 41, 32), (976, 2049, 1100, 41, 32), (976, 1024, 1100, 41, 32),
                  (976, 2048, 1027, 41, 32), (976, 2048, 0, 41, 32), (976, 2048, 1100, 39, 32), (976, 2048, 1100, 32, 32), (976, 2048, 1100, 0, 32), (9248, 50176, 1100, 41, 32)):
        lends(*sizes)
        every_call("refused 1")
    lends(976, 2048, 1028, 40, 32)
    rcv(R, 20, 5, "188007", has="Confirmed}")
    lends()
    title("number 1: a damaged table, one field after the other, each mended again; the time is wrong as well")
    pair(records=2, _0=4, _1=2)
    tim(R, 50), req(R, 60, 5, 1), req(R, 70, 5, 2)
    for at, value in ((7, 1), (9, 128), (10, 9), (11, 9), (15, 255), (23, 255), (92, 1), (95, 5), (96, 1), (96, 2), (97, 2), (98, 1), (111, 1), (113, 129), (624, 12), (624, 0), (627, 128), (628, 5), (629, 3), (630, 32), (631, 129), (639, 1), (641, 255), (647, 255), (648, 1), (664, 1), (665, 1), (665, 5), (665, 16), (665, 255), (666, 1), (671, 255)):
        was = ends[R].octets[at]
        put(R, at, value), tim(R, 49, has="refused 1"), put(R, at, was)
    put(R, 10, 9), req(R, 0, 256, 3, 0, "00" * 1025, has="refused 1"), put(R, 10, 4)
    edge("damaged table and time wrong")
    title("number 1: the flag TIDnew in a responder's record; an initiator's may have it in every state")
    for state in STATES[1:]:
        e, role = reach(state)
        put(e, 630, ends[e].octets[630] | 16), tim(e, 400, has="; none due" if role == 0 else "refused 1")
    title("what is not judged: exit information past its length; it stays as it is, and is zeroed with its record")
    pair(records=2)
    req(R, 60, 5, 1), req(R, 70, 6, 1)
    put(R, 799, 77), tim(R, 80, has="; none due"), put(R, 799, 77), tim(R, 2060, has="fired initiator 5/7"), put(R, 799, 77), abo(R, 2070, 0, 5, 7, 1), put(R, 799, 0), req(R, 2080, 5, 1, has="; tid 9")
    title("two live records of the same role, peer and TID give 1")
    pair(records=2)
    req(R, 60, 5, 1), req(R, 70, 5, 2), put(R, 802, 7), tim(R, 80, has="refused 1"), put(R, 802, 8), tim(R, 80, has="; none due")
    title("every call refuses a damaged table, and works on the mended one")
    pair()
    req(R, 10, 5, 1), put(R, 100, 1)
    every_call("refused 1")
    put(R, 100, 0), rcv(R, 20, 5, "188007", has="Confirmed}")
    title("every call refuses a time that goes back or is over the bound")
    pair()
    req(R, 10, 5, 1)
    every_call("refused 2", 9), every_call("refused 2", BOUND + 1)
    title("the lowest number: time before peer, peer before data, data before class, class before TID in use, that before no free record")
    pair(records=1, first=7)
    tim(R, 100)
    req(R, 99, 256, 3, 0, "00" * 1025, has="refused 2")
    edge("time below clock and everything else wrong")
    req(R, 100, 256, 3, 0, "00" * 1025, has="refused 3")
    edge("data 1,025 and peer 256")
    req(R, 100, 255, 3, 0, "00" * 1025, has="refused 4")
    edge("data 1,025, class 3")
    req(R, 100, 255, 1, has="; tid 7"), req(R, 100, 5, 3, has="refused 5")
    edge("class 3 at a full table")
    req(R, 100, 5, 2 ** 64 - 1, has="refused 5"), req(R, 100, 2 ** 64 - 1, 1, has="refused 3"), req(R, 100, 5, 1, has="refused 7"), put(R, 8, 7), req(R, 100, 6, 2, has="refused 6")
    edge("class 2, GenTID live, table full")
    req(R, 100, 6, 0, has="refused 6"), look(R, has=": clock 100, next TID 7;")
    edge("6 refuses class 0 too")
    title("GenTID that comes round to a held-on record gives 6 until its user aborts; a responder record of that TID doesn't matter")
    pair()
    rcv(R, 10, 5, "0E000701"), req(R, 20, 9, 2, has="; tid 7"), rcv(R, 30, 9, "188007", has="HeldOn}"), put(R, 8, 7), req(R, 40, 5, 0, has="refused 6"), req(R, 40, 5, 1, has="refused 6")
    abo(R, 50, 0, 9, 7, 0, has="; sent 21000700"), req(R, 60, 5, 1, has="; tid 7")
    title("the user's answer: 3, 4, 8, 9 in this order; exit information with an answer naming a class 2 responder is 4 in every state")
    long = "00" * 129
    pair()
    ans(R, 10, 0, 256, 7, long, has="refused 3"), ans(R, 10, 0, 5, 7, long, has="refused 4"), ans(R, 10, 0, 5, 7, "AA", has="refused 8")
    edge("answer with exit information: name unknown")
    for state in ("RTidokWait2", "RInvokeRespWait2", "RResultWait", "RResultRespWait"):
        e, role = reach(state)
        ans(e, 400, role, 5, 7, "AA", has="refused 4"), look(e)
        edge("answer with exit information: class 2 responder in " + state)
    for state in ("RWaitTimeout", "RTidokWait1", "IResultWait1", "IResultWait2", "IWaitTimeout"):
        e, role = reach(state)
        ans(e, 400, role, 5, 7, "AA", has="refused 9"), ans(e, 400, 1 - role, 5, 7, "AA", has="refused 8"), ans(e, 400, role, 6, 7, "AA", has="refused 8")
        edge("answer with exit information: " + state)
    e, role = reach("IResultRespWait")
    ans(e, 400, role, 5, 7, "AA", has="; sent 98000709AA")
    edge("answer with exit information: initiator RESULT RESP WAIT")
    title("a TID with its top bit, and a role that is none, have no live record: 8")
    e, role = reach("RInvokeRespWait1")
    ans(e, 400, 1, 5, 0x8007, has="refused 8"), abo(e, 400, 1, 5, 0x8007, 0, has="refused 8"), res(e, 400, 1, 5, 2 ** 64 - 1, has="refused 8")
    edge("TID with top bit")
    ans(e, 400, 2, 5, 7, has="refused 8"), res(e, 400, 2 ** 64 - 1, 5, 7, has="refused 8"), abo(e, 400, 2, 5, 7, 0, has="refused 8"), ans(e, 400, 1, 5, 7, has="; sent 188007")
    edge("role that is none")
    title("the user's result: 3, 4, 8, 9; the initiator's record has no row for it")
    e, role = reach("RInvokeRespWait2")
    res(e, 400, 1, 256, 7, "00" * 1025, has="refused 3"), res(e, 400, 1, 6, 7, "00" * 1025, has="refused 4"), res(e, 400, 1, 6, 7, has="refused 8"), res(e, 400, 0, 5, 7, has="refused 8")
    e, role = reach("RTidokWait2")
    res(e, 400, 1, 5, 7, has="refused 9 {RTidokWait2")
    title("the user's abort: 3, 8, 9; any octet is a reason")
    e, role = reach("RInvokeRespWait2")
    abo(e, 400, 1, 256, 7, 0, has="refused 3"), abo(e, 400, 1, 5, 8, 0, has="refused 8"), abo(e, 400, 0, 5, 7, 0, has="refused 8"), abo(e, 400, 1, 5, 7, 0, has="; sent 21800700")
    abo(e, 400, 1, 5, 7, 0, has="refused 8")
    title("receive: peer before length; 0 and 1,501 octets give 11, of the ignored direction too; 1,500 are accepted")
    pair()
    rcv(G, 10, 256, "", has="refused 3")
    edge("receive: peer 256 and empty PDU")
    rcv(G, 10, 5, "", has="refused 11"), rcv(G, 10, 5, "0E800702", [0] * 1497, has="refused 11")
    edge("receive: 1,501 octets of an Invoke with top bit 1")
    rcv(G, 10, 5, "0E000702", [0] * 1497, has="refused 11"), look(G, has=": clock 0"), rcv(G, 10, 5, "0E000702", [0] * 1496, has="TooLong}; sent 20800707")


def every_call(has, time=20):
    """Each of the engine's calls, each of which would otherwise be accepted or refused with a higher number."""
    req(R, time, 5, 1, 0, "AA", has=has), ans(R, time, 0, 5, 7, has=has), res(R, time, 0, 5, 7, has=has), abo(R, time, 0, 5, 7, 0, has=has)
    rcv(R, time, 5, "188007", has=has), tim(R, time, has=has), fir(R, time, 0, 5, 7, has=has)


def mixups():
    title("mix-up: an abort shown as a result without data. A Result with no data is a true result")
    pair()
    req(R, 10, 5, 2), rcv(R, 20, 5, "188007"), rcv(R, 30, 5, "168007", has="; result initiator 5/7 datagram 3+0")
    req(R, 40, 5, 2), rcv(R, 50, 5, "188008"), rcv(R, 60, 5, "208008 00", has="; abort initiator 5/8 no data")
    abo(R, 70, 0, 5, 7, 0), req(R, 80, 5, 2), rcv(R, 90, 5, "188009"), rcv(R, 95, 5, "218009 00", has="; abort initiator 5/9 type 1 no data")
    title("mix-up: a cached TID compared as a plain number, so that 0 after 32,767 looks old")
    sets()
    fresh(R, 2, 32767), fresh(G, 2, 0)
    req(R, 10, 5, 1), get(G, 20, 5, has="; sent 1CFFFF"), get(R, 30, 5, has="; sent 1C7FFF"), get(G, 40, 5, has="Verified1}; invoke responder 5/32767"), ans(G, 50, 1, 5, 32767), get(R, 60, 5, has="Confirmed}")
    rcv(G, 80, 5, "0E000001", has="{Free Invoke Valid1}; invoke responder 5/0")
    title("mix-up: the RID-clear copy of an Invoke answered again. It is not, in any state")
    first_contact(1)
    rcv(G, 135, 5, "0E000701 AABB", has="{RInvokeRespWait1 Invoke Ignored}"), ans(G, 140, 1, 5, 7, has="; sent 188007"), rcv(G, 150, 5, "0E000701 AABB", has="{RWaitTimeout Invoke Ignored}"), rcv(G, 160, 5, "0F000701 AABB", has="; sent 198007")
    pair()
    rcv(G, 10, 5, "0E000702"), rcv(G, 20, 5, "0E000702", has="{RTidokWait2 Invoke Ignored}"), rcv(G, 30, 5, "1C0007"), tim(G, 1030, has="; sent 188007"), rcv(G, 1040, 5, "0E000702", has="{RResultWait Invoke Ignored}")
    title("mix-up: TIDok sent without counting it in RCR. With RCR_MAX 1 it is the one PDU after the Invoke")
    pair(_0=1)
    req(R, 100, 5, 1), rcv(R, 200, 5, "1C8007", has="; sent 1C0007"), look(R, has="RCR 1 AEC 0 due 2300"), rcv(R, 300, 5, "1C8007", has="Ignored}"), tim(R, 2300, has="GivenUp}")
    title("mix-up: a refusal that has already raised GenTID or stored the time")
    pair(records=1)
    req(R, 100, 5, 1, has="; tid 7"), req(R, 500, 5, 1, has="refused 7"), req(R, 500, 5, 9, has="refused 5"), req(R, 500, 5, 1, 0, "00" * 1025, has="refused 4"), res(R, 500, 0, 5, 7, has="refused 9"), rcv(R, 500, 5, "", has="refused 11")
    look(R, has=": clock 100, next TID 8;"), tim(R, 100, has="; none due"), req(R, 100, 5, 0, has="; tid 8")


# ---- what must be reached

def needed():
    """Every line of the state tables (state, event, condition), dispatch, first Invokes, refusals and edge cases."""
    both = ["Ack", "Ack RID", "Tve", "Tve RID", "Segmented Invoke", "Segmented Result", "Nack", "malformed", "answer", "result", "abort"]
    events = {"I": both + ["Result", "Result RID", "Result cut", "Result cut RID"], "R": both + ["Invoke", "Invoke RID"]}
    counted = ["RCR < RCR_MAX, TIDok not sent", "RCR < RCR_MAX, TIDok sent", "RCR = RCR_MAX"]
    silent = ["no U/P", "U/P, AEC < AEC_MAX", "U/P, AEC = AEC_MAX"]
    held, exit_or_not, cache = ["not HoldOn", "HoldOn"], ["", "exit information"], ["none cached", "cached"]
    conditions = {("IResultWait1", "timer"): counted, ("IResultWait2", "timer"): counted + ["HoldOn, limit"], ("RTidokWait1", "timer"): ["", "limit"], ("RTidokWait2", "timer"): ["", "limit"],
                  ("RResultWait", "timer"): ["", "hold-on sent, limit"], ("IResultRespWait", "timer"): silent, ("IResultRespWait", "answer"): exit_or_not,
                  ("RInvokeRespWait1", "timer"): silent, ("RInvokeRespWait2", "timer"): silent, ("RInvokeRespWait1", "answer"): exit_or_not,
                  ("RResultWait", "Invoke RID"): ["hold-on sent", "hold-on not sent"], ("RResultRespWait", "timer"): ["RCR < RCR_MAX", "RCR = RCR_MAX"],
                  ("RWaitTimeout", "Invoke RID"): exit_or_not, ("RWaitTimeout", "Tve RID"): exit_or_not}
    for rid in ("", " RID"):
        conditions.update({("IResultWait1", "Tve" + rid): counted, ("IResultWait2", "Tve" + rid): counted, ("IResultWait2", "Ack" + rid): held, ("IResultWait2", "Result" + rid): held,
                           ("RTidokWait1", "Tve" + rid): cache, ("RTidokWait2", "Tve" + rid): cache})
    conditions.update({("IWaitTimeout", "Result RID"): exit_or_not, ("IWaitTimeout", "Result cut RID"): exit_or_not})
    for state in STATES[1:]:
        for event in events[state[0]] + ["timer"]:
            yield from ((state, event, c) for c in conditions.get((state, event), [""]))
        yield from ((state, "timer, by name", c) for c in conditions.get((state, "timer"), [""]))
        yield from ((state, "Abort", c) for c in ("provider", "user"))
    yield from (("Free", "malformed", c) for c in ("Invoke", "TIDve", "other"))
    yield from (("Free", "Tve" + rid, c) for rid in ("", " RID") for c in ("TIDve", "top bit 0"))
    yield from (("Free", e, "top bit %d" % k) for e in ("Ack", "Ack RID", "Abort", "Segmented Invoke", "Segmented Result", "Nack") for k in (0, 1))
    yield from (("Free", e, "top bit 1") for e in ("Result", "Result RID", "Result cut", "Result cut RID"))
    yield from (("dispatch", "%d octets" % n, "") for n in (1, 2))
    yield from (("dispatch", d, f) for d in ("Invoke with top bit 1", "Result with top bit 0") for f in ("well formed", "malformed"))
    yield from (("dispatch", "ignored direction", c) for c in ("live record", "no record"))
    distances = ["g, none cached", "g, d = 0", "g, d over 16,383"]
    yield from (("first Invoke, class 0", t, tidnew) for tidnew in ("", "TIDnew") for t in ("a", "b", "c", "d", "d, full table"))
    yield from (("first Invoke, class %d" % k, t, "") for k in (1, 2) for t in ["a", "b", "c", "e", "f"] + distances)
    yield from (("first Invoke, class %d" % k, t, "TIDnew") for k in (1, 2) for t in ["a", "b", "c", "e", "g, d 1 to 16,383"] + distances)
    yield from (("request, class %d" % k, due, to_0) for k in (0, 1, 2) for due in ("due", "not due") for to_0 in ("", "GenTID to 0"))
    yield from (("Invoke again", tidnew, due) for tidnew in ("TIDnew", "no TIDnew") for due in ("due", "not due"))
    without_timer = ["HeldOn", "HoldOnSent in RInvokeRespWait2", "HoldOnSent in RResultWait", "ToVerify1", "ToVerify2", "Restarted1", "Restarted2"]
    yield from (("no timer", row, mode) for row in without_timer for mode in ("limit", "no limit"))
    yield from (("limit in force", state, then) for state in ("RTidokWait1", "RTidokWait2", "IResultWait2", "RResultWait") for then in ("stays", "a timer again", "freed"))
    kinds = ["Invoke", "Invoke RID", "Result", "Result RID", "Result cut", "Result cut RID", "Ack", "Ack RID", "Tve", "Tve RID", "Abort", "Segmented Invoke", "Segmented Result", "Nack"]
    yield from (("told", kind, item) for kind in kinds for item in ("unknown item", "none"))
    openers = ["Valid1", "Valid2", "ToVerify1", "ToVerify2", "Restarted1", "Restarted2"]
    yield from (("identity", row, item) for row in openers + ["ResultTaken", "ResultConfirms"] for item in ("unknown item", "none"))
    yield from (("identity", row, "none, and one before") for row in ("ResultTaken", "ResultConfirms"))
    yield from (("cost told", state, ended + event) for state, ended, event in costs_needed(events["I"]))
    yield from (("cost", where, "") for where in ("below the bound", "the bound itself", "stops at the bound"))
    forms = [(state, form) for state in ("IWaitTimeout", "RWaitTimeout") for form in ("no exit", "short exit", "long exit")] + [("RResultWait", "no exit")]
    yield from ((ack, state, form + item) for ack in ("Ack", "Ack again") for state, form in forms for item in ("", ", unknown item"))
    yield from (("timer", "fired", c) for c in ("alone", "later ones due", "a tie"))
    yield ("timer", "none due", "")
    yield from (("fire", "fired", c) for c in ("the earliest", "a later one"))
    yield from (("fire", 9, c) for c in ("no deadline", "a later deadline"))
    yield from (("deadline", "told", c) for c in ("alone", "later ones", "a tie", "to come", "past", "past the bound"))
    yield from (("deadline", "none", c) for c in ("no live record", "live records"))
    yield from (("deadline", 1, c) for c in ("size", "words", "form"))
    yield from (("salvage", 1, c) for c in ("size", "words"))
    yield from (("salvage", 15, c) for c in ("records sound", "records damaged too"))
    yield from (("salvage", 0, c) for c in ("nothing", 1, 2, 3))
    numbers = {"fresh": (0, 1, 10), "request": (0, 2, 3, 4, 5, 6, 7), "answer": (0, 2, 3, 4, 8, 9), "result": (0, 2, 3, 4, 8, 9), "abort": (0, 2, 3, 8, 9), "receive": (0, 2, 3, 11), "timer": (0, 2),
               "fire": (0, 2, 3, 8, 9)}
    yield from ((name, n, "") for name, list_ in numbers.items() for n in list_)
    yield from ((name, 1, why) for name in numbers if name != "fresh" for why in ("size", "form"))
    yield from (("edge", text, "") for text in EDGES)
    yield from (("row", row, "") for row in ROWS.split())
    yield from (("row", "opening " + row, "") for row in OPENINGS.split())


def costs_needed(events):
    """Each initiator's state with each event that isn't refused there, and whether the record ends with it."""
    always = {"IResultWait1": ["Ack", "Ack RID"], "IResultWait2": ["Result cut", "Result cut RID"], "IResultRespWait": [], "IWaitTimeout": ["timer"]}
    for state, ending in always.items():
        refused = ["result"] if state == "IResultRespWait" else ["answer", "result"]
        ending = ending + ["Abort", "malformed", "abort"]
        yield from ((state, "ended by ", event) for event in ending + ["timer"])
        yield from ((state, "", event) for event in events + ["timer"] if event not in ending + refused)


EDGES = ["data 1,025 and peer 256", "data 1,025, class 3", "class 3 at a full table", "class 2, GenTID live, table full", "time below clock and everything else wrong", "damaged table and time wrong",
         "answer with exit information: name unknown", "answer with exit information: RWaitTimeout", "answer with exit information: IResultWait1", "answer with exit information: IResultWait2",
         "answer with exit information: initiator RESULT RESP WAIT", "TID with top bit", "role that is none", "receive: peer 256 and empty PDU", "receive: 1,501 octets of an Invoke with top bit 1",
         "fresh: wrong size and bad setting", "6 refuses class 0 too"] + ["answer with exit information: class 2 responder in " + s for s in ("RTidokWait2", "RInvokeRespWait2", "RResultWait", "RResultRespWait")]
ROWS = """Ignored NotAllowed PeerAborts Malformed UserAborts PeerAbortsUnseen MalformedUnseen TidokSent Confirmed HeldOn Resent GivenUp ResultUnsupported ResultConfirms ResultTaken ResultAnswered
          ResultAcked UserAwaited UserSilent ResultSeenAgain TimeoutEnds Verified1 Verified2 TidveRepeated InvokeAnswered InvokeAcked UserWorks HoldOnSent ResultSent HoldOnRepeated ResultResent
          InvokeSeenAgain TidokSeenAgain TidokWaitEnds HeldOnWaitEnds ResultWaitEnds"""
OPENINGS = "Ignored Requested0 Requested1 Requested2 Malformed WrongVersion Unsupported TooLong Shown0 Valid1 Valid2 ToVerify1 ToVerify2 Restarted1 Restarted2 UnknownTidve"

transactions()
user_acknowledgement()
exit_information()
resending()
tids()
tidnew()
openings()
malformed()
in_every_state()
acting_rows()
timers()
timer_in_two()
waiting_limit()
unknown_items()
costs()
salvage()
refusals()
mixups()
missed = [key for key in needed() if key not in reached]
if missed or len(titles) < 60:
    sys.exit("scenarios: %d titles; not reached:\n" % len(titles) + "\n".join(" | ".join(map(str, key)) for key in missed))
folder = pathlib.Path(__file__).resolve().parent / "scenarios"
files = {"commands.txt": "\n".join(lines) + "\n", "expected.txt": "\n".join(expected) + "\n"}
if "--check" in sys.argv[1:]:
    wrong = [name for name, text in files.items() if (folder / name).read_text() != text]
    sys.exit("scenarios: " + ", ".join(wrong) + " differ from document 01 as read here" if wrong else 0)
for name, text in files.items():
    (folder / name).write_text(text)
print("%d scenarios, %d lines" % (len(titles), len(lines)))
