#!/usr/bin/env python3
"""Writes the codec cases and what they must give: tests/codec_cases/commands.txt and expected.txt.

An independent reading of document 01 ("Bytes on the air", bench cases), of document 02's L4 and of the C interface's words: nothing
here is taken from the definitions or the code, so the program's output is compared with a second opinion.
usage: tests/codec_cases.py [--check]   (--check: only say whether both files are as this script writes them)
"""
import pathlib
import sys

from notation import text_of

HEADER = {1: 4, 2: 3, 3: 3, 4: 4, 5: 4, 6: 4, 7: 4}
GTR_TTR = {1, 2, 5, 6}
BARE = {3, 4, 7}


def read(s):
    """The words of a PDU, or the number that reading it gives."""
    if not 1 <= len(s) <= 1500:
        return 11
    w = [0] * 88
    typ = s[0] // 8 % 16
    if typ not in HEADER:
        return 102
    if len(s) < HEADER[typ]:
        return 101
    if typ == 7 and len(s) < 4 + s[3]:
        return 101
    if typ == 1 and s[3] % 4 == 3:
        return 105
    if typ == 4 and s[0] % 8 > 1:
        return 106
    w[0], w[4] = typ, s[1] * 256 + s[2]
    if typ in GTR_TTR:
        w[1], w[2] = s[0] // 4 % 2, s[0] // 2 % 2
    if typ != 4:
        w[3] = s[0] % 2
    if typ == 1:
        w[5], w[6], w[7], w[8] = s[3] // 64, s[3] // 32 % 2, s[3] // 16 % 2, s[3] % 4
    if typ == 3:
        w[9] = s[0] // 4 % 2
    if typ == 4:
        w[10], w[11] = s[0] % 8, s[3]
    if typ in (5, 6):
        w[12] = s[3]
    at = HEADER[typ]
    if typ == 7:
        w[13], w[14] = s[3], 4
        at += s[3]
    con = s[0] >= 128
    while con:
        if w[15] == 16:
            return 104
        if at >= len(s):
            return 103
        first = s[at]
        long = first // 4 % 2
        if long and at + 1 >= len(s):
            return 103
        start, length = (at + 2, s[at + 1]) if long else (at + 1, first % 4)
        if start + length > len(s):
            return 103
        k = 24 + 4 * w[15]
        w[k:k + 4] = [first // 8 % 16, long, start, length]
        w[15] += 1
        # 02, L4: identities over 5 aren't in 8.4; the first such item is told, by its identity and its first octet
        if first // 8 % 16 > 5 and w[18] == 0:
            w[18], w[19] = first // 8 % 16, at
        at, con = start + length, first >= 128
    if typ in BARE:
        return 107 if at < len(s) else w
    w[16], w[17] = at, len(s) - at
    return w


WIDTH = {1: 1, 2: 1, 3: 1, 4: 65535, 5: 3, 6: 1, 7: 1, 8: 3, 9: 1, 10: 7, 11: 255, 12: 255, 13: 255}
WORDS = {1: {1, 2, 3, 5, 6, 7, 8}, 2: {1, 2, 3}, 3: {3, 9}, 4: {10, 11}, 5: {1, 2, 3, 12}, 6: {1, 2, 3, 12}, 7: {3, 13}}


def write(w, src):
    """The octets of the PDU that the words say, or the number that writing it gives. Words 18 and 19 are passed over."""
    typ = w[0]
    if typ not in HEADER:
        return 102
    said = min(w[15], 16)
    items = [w[24 + 4 * k:28 + 4 * k] for k in range(said)]
    nacks = w[13] if typ == 7 else 0
    if HEADER[typ] + nacks + sum((2 if i[1] else 1) + i[3] for i in items) + w[17] > 1500:
        return 11
    for k in range(1, 14):
        if k == 4 and w[4] > 65535:
            return 101
        if k != 4 and w[k] > (WIDTH[k] if k in WORDS[typ] else 0):
            return 101
    if typ != 7 and w[14] or typ in BARE and w[16] or any(w[20:24]) or any(w[24 + 4 * said:88]):
        return 101
    if w[14] + nacks > len(src) or w[16] + w[17] > len(src):
        return 101
    for identity, long, start, length in items:
        if identity > 15 or long > 1 or length > (255 if long else 3):
            return 101
    if typ == 1 and w[8] == 3:
        return 105
    if typ == 4 and w[10] > 1:
        return 106
    if any(start + length > len(src) for _, _, start, length in items):
        return 103
    if w[15] > 16:
        return 104
    if typ in BARE and w[17]:
        return 107
    flags = w[10] if typ == 4 else 4 * (w[9] if typ == 3 else w[1]) + 2 * w[2] + w[3]
    out = [128 * bool(items) + 8 * typ + flags, w[4] // 256, w[4] % 256]
    if typ == 1:
        out.append(64 * w[5] + 32 * w[6] + 16 * w[7] + w[8])
    if typ in (4, 5, 6):
        out.append(w[11] if typ == 4 else w[12])
    if typ == 7:
        out += [w[13]] + list(src[w[14]:w[14] + w[13]])
    for k, (identity, long, start, length) in enumerate(items):
        con = 128 * (k + 1 < said)
        out += [con + 8 * identity + 4, length] if long else [con + 8 * identity + length]
        out += src[start:start + length]
    return out + list(src[w[16]:w[16] + w[17]])


def separate(d):
    """The parts of a datagram, or 11."""
    if not 1 <= len(d) <= 1500:
        return 11
    if d[0] != 0:
        return [(0, len(d))]
    parts, at = [], 1
    while at < len(d):
        length, start = d[at], at + 1
        if length >= 128:
            if start >= len(d):
                return 11
            length, start = length % 128 * 256 + d[start], start + 1
        if length == 0 or start + length > len(d):
            return 11
        parts.append((start, length))
        at = start + length
    return parts or 11


def join(lengths, src):
    """The datagram of PDUs, or 11."""
    if not lengths or any(not 1 <= n <= 1500 for n in lengths) or sum(lengths) != len(src):
        return 11
    out, at = [0], 0
    for n in lengths:
        out += [n] if n < 128 else [128 + n // 256, n % 256]
        out += src[at:at + n]
        at += n
    return out if len(out) <= 1500 else 11


def outcome(n):
    return ": ok" if n == 0 else ": refused %d" % n if n < 100 else ": D%d" % (n - 100)


def octets_or(result):
    return outcome(result) if isinstance(result, int) else outcome(0) + " " + text_of(result)


def show_read(s):
    w = read(s)
    if isinstance(w, int):
        return outcome(w)
    return outcome(0) + "".join(" %d=%d" % (k, v) for k, v in enumerate(w) if v) + " ->" + octets_or(write(w, s))


def show_separate(d):
    parts = separate(d)
    if isinstance(parts, int):
        return outcome(parts)
    return outcome(0) + "".join(
        " " + text_of(d[a:a + n]) + outcome(r if isinstance(r := read(d[a:a + n]), int) else 0) for a, n in parts)


lines, expected = [], []


def note(text):
    lines.append("# " + text)
    expected.append("# " + text)


def add(line, shown):
    lines.append(line)
    expected.append(line + shown)


def octets(*parts):
    out = []
    for p in parts:
        out += bytes.fromhex(p) if isinstance(p, str) else p
    return out


def r(*parts):
    s = octets(*parts)
    add("r " + text_of(s), show_read(s))


def w(words, *parts):
    src = octets(*parts)
    full = [words.get(k, 0) for k in range(88)]
    add("w " + " ".join("%d=%d" % kv for kv in sorted(words.items())) + " /" + text_of(src), octets_or(write(full, src)))


def s(*parts):
    d = octets(*parts)
    add("s " + text_of(d), show_separate(d))


def j(lengths, *parts):
    src = octets(*parts)
    add("j " + "".join("%d " % n for n in lengths) + "/" + text_of(src), octets_or(join(lengths, src)))


def reading():
    note("bench cases")
    for t in ("0E000522", "0F000522", "0E000502", "0F000502", "168005", "1C8005", "20000502", "9800050AAABB", "00", "0E0005", "0E000503", "18800500"):
        r(t)
    note("each type with each flag")
    for typ, rest in ((1, "02"), (2, ""), (3, ""), (5, "07"), (6, "FF")):
        for flags in range(8):
            r("%02X8005" % (typ * 8 + flags) + rest)
    for flags in range(8):
        r("%02X8005" % (32 + flags) + "08")
    for flags in range(8):
        r("%02X000501AA" % (56 + flags))
    note("the octet of an Invoke: version, TIDnew, U/P, reserved bits, class")
    for x in ("00", "01", "10", "20", "40", "80", "C2", "0D", "3E", "FF"):
        r("0E0005" + x)
    note("D2 and D1: types, and each fixed header cut by one")
    for t in ("80", "40", "48", "78", "FF", "08", "0800", "080005", "1000", "1800", "200005", "28", "280005", "300005", "380005"):
        r(t)
    note("Nack lists of 0, 1 and 255, each also cut by one")
    r("3800050 0".replace(" ", "")), r("38000501AA"), r("38000501")
    r("380005FF", [0x33] * 255), r("380005FF", [0x33] * 254), r("B80005 01 AA 08".replace(" ", "")), r("38000501AABB")
    note("D5 and D6 come before items, D7 after them")
    r("8E000503"), r("A2000508"), r("A0000508"), r("9800050A"), r("98000508"), r("9800050800"), r("2000050800")
    note("items: short and long, empty, ending at the end and one past it, reserved bits, unknown identities")
    for t in ("960005 08", "960005 0B AABBCC", "960005 0B AABB", "960005 0C 00", "960005 0C", "960005 0C 02 AABB", "960005 0C 02 AA",
              "960005 0F 02 AABB", "960005 7D 01 77 55", "960005 8A AABB 0C 01 CC 0102", "960005 80", "960005", "9E000510 2A01 AA".replace("9E0005", "8E0005")):
        r(t.replace(" ", ""))
    r("960005", "0CFF", [0x41] * 255, "55"), r("960005", "0CFF", [0x41] * 254)
    note("02, L4: the first item that isn't known, by its identity and its place: every identity in either form, in every type, after known ones and before them")
    for k in range(16):
        r("960005%02X55" % (8 * k)), r("980005%02X01AA" % (8 * k + 4))
    for t in ("8E004011 9109 9A0102 7902 EE", "8E00400130", "8E004202 7D00 EE", "968005 8A0102 4B030405 DD", "978005 50", "9C9005 30", "AE000501 B0 38 AA", "B6800501 9101 70", "B80005 02 AABB 30", "A08005 08 B8 30", "A18005 08 89AA 78",
              "980005 811F 0AAABB", "960005 B0 38", "960005 B8 30", "960005 80 88 90 98 A0 A8 30", "960005 80 88 90 98 A0 28"):
        r(t.replace(" ", ""))
    note("sixteen items that are all unknown, that none is, and of which the last is; a seventeenth; an unknown item that is cut")
    r("960005", [0xF8 - 8 * k for k in range(10)], [0xF8 - 8 * k for k in range(5)], "30", "55"), r("960005", [0xB0] * 15, "30"), r("980005", [0xA8] * 15, "28"), r("8E000502", [0x80] * 15, "78"), r("960005", [0xB0] * 16, "30")
    r("96000579"), r("9600057C"), r("960005B07C02AA"), r("960005B0"), r("9800053000"), r("8E00050330"), r("A200050830"), r("C0000530"), r("B800050230")
    note("15, 16 and 17 items; the sixteenth cut; the sixteenth with CON and nothing after it")
    r("960005", [0x88] * 14, "08", "55"), r("960005", [0x88] * 15, "08", "55"), r("960005", [0x88] * 16, "08")
    r("960005", [0x88] * 16), r("960005", [0x88] * 15), r("960005", [0x88] * 15, "0A01"), r("960005", [0x88] * 15, "8A01"), r("980005", [0x88] * 15, "08"), r("980005", [0x88] * 15, "0800")
    note("lengths 0, 1, 1,500 and 1,501")
    r(""), r("0E"), r("0E000502", [0x55] * 1496), r("0E000502", [0x55] * 1497)


def invoke(**more):
    return {0: 1, 1: 1, 2: 1, 4: 5, 8: 2, **{int(k[1:]): v for k, v in more.items()}}


def writing():
    big = 2 ** 64 - 1
    note("writing: the exit information of the last Ack, short to length 3; long stays long")
    w({0: 3, 4: 5, 15: 1, 24: 1, 26: 0, 27: 2}, "AABB")
    w({0: 3, 4: 5, 15: 1, 24: 1, 25: 1, 26: 0, 27: 2}, "AABB")
    w({0: 3, 4: 5, 15: 1, 24: 1, 25: 1, 26: 1, 27: 0}, "AA")
    note("D2, then 11, then D1")
    w({0: 0}), w({0: 8}), w({0: big, 17: 2000})
    w(invoke(_17=1497), [0] * 1497), w(invoke(_17=1496), [0] * 1496), w(invoke(_17=big)), w(invoke(_5=4, _17=1497), [0] * 1497)
    w({0: 7, 4: 5, 13: 255, 17: 1242}, [0] * 1300), w({0: 7, 4: 5, 13: 255, 17: 1241}, [0] * 1300)
    note("D1: one past each width, and a word that the type hasn't")
    for k, v in ((1, 2), (2, 2), (3, 2), (4, 65536), (5, 4), (6, 2), (7, 2), (8, 4), (9, 1), (10, 1), (11, 1), (12, 1), (13, 1), (14, 1), (20, 1), (21, 1), (22, 1), (23, 1), (24, 1), (87, 1)):
        w(invoke(**{"_%d" % k: v}))
    w({0: 4, 4: 5, 10: 8}), w({0: 4, 4: 5, 11: 256}), w({0: 5, 4: 5, 12: 256}), w({0: 7, 4: 5, 13: 256}, [0] * 300), w({0: 2, 4: 5, 8: 1}), w({0: 3, 4: 5, 1: 1}), w({0: 3, 4: 5, 16: 1}, "AA")
    w({0: 3, 4: 5, 9: 1, 3: 1}), w({0: 3, 4: 5, 9: 2})
    w({0: 7, 4: 5, 13: 2, 14: 1}, "AABBCC"), w({0: 7, 4: 5, 13: 2, 14: 2}, "AABBCC"), w({0: 7, 4: 5, 14: 3}, "AABBCC"), w({0: 7, 4: 5, 14: 4}, "AABBCC"), w({0: 7, 4: 5, 13: 2, 14: big}, "AABBCC")
    w(invoke(_16=1, _17=2), "AABBCC"), w(invoke(_16=2, _17=2), "AABBCC"), w(invoke(_16=3), "AABBCC"), w(invoke(_16=4), "AABBCC"), w(invoke(_16=big, _17=1), "AABBCC")
    note("02, L4: words 18 and 19 are passed over, whatever they say; 20 to 23 are not")
    for k in (18, 19):
        w(invoke(**{"_%d" % k: 1})), w(invoke(**{"_%d" % k: big})), w({0: 3, 4: 5, k: 6}), w({0: 3, 4: 5, 15: 1, 24: 9, k: big})
    w(invoke(_18=15, _19=9, _20=1)), w(invoke(_18=15, _19=9)), w({0: 4, 4: 5, 10: 2, 18: big, 19: big}), w({0: 0, 18: 6}), w({0: 2, 4: 5, 15: 1, 24: 16, 18: 6, 19: 3})
    note("D1 of items: identity 16, form 2, short length 4, long length 256")
    w({0: 2, 4: 5, 15: 1, 24: 16}, "AA"), w({0: 2, 4: 5, 15: 1, 24: 1, 25: 2}, "AA"), w({0: 2, 4: 5, 15: 1, 24: 1, 27: 4}, "AABBCCDD"), w({0: 2, 4: 5, 15: 1, 24: 1, 25: 1, 27: 256}, [7] * 256), w({0: 2, 4: 5, 15: 1, 24: 1, 25: 1, 27: 255}, [7] * 256)
    note("D5, D6, D3, D4, D7 and their order")
    w(invoke(_8=3)), w({0: 4, 4: 5, 10: 2}), w({0: 4, 4: 5, 10: 7, 17: 1}, "AA"), w({0: 4, 4: 5, 10: 1, 11: 200})
    w({0: 2, 4: 5, 15: 1, 24: 1, 26: 1, 27: 1}, "AA"), w({0: 2, 4: 5, 15: 1, 24: 1, 26: 2}, "AA"), w({0: 2, 4: 5, 15: 1, 24: 1, 26: big, 27: 1}, "AA")
    w({0: 2, 4: 5, 15: 16, **{24 + 4 * k: 1 for k in range(16)}}), w({0: 2, 4: 5, 15: 17, **{24 + 4 * k: 1 for k in range(16)}}), w({0: 2, 4: 5, 15: big})
    w({0: 2, 4: 5, 15: 17, 84: 1, 87: 1}), w(invoke(_8=3, _15=17)), w({0: 3, 4: 5, 15: 17, 17: 1}, "AA"), w({0: 3, 4: 5, 17: 1}, "AA"), w({0: 4, 4: 5, 17: 1}, "AA"), w({0: 7, 4: 5, 17: 1}, "AA"), w({0: 3, 4: 5, 17: 1})


def datagrams():
    note("separation")
    for t in ("000318800504" + "20800608", "0000", "00", "0E000502", "01", "000180", "008001 80".replace(" ", ""), "0080", "008000", "00 80 03 188005".replace(" ", ""),
              "000418800520", "000318800500", "00031880050", "0003188005" + "8100", "0003188005" + "81"):
        s(t if len(t) % 2 == 0 else t + "0")
    s(""), s("00", "7F", [0x0E, 0, 5, 2] + [9] * 123), s("0080", "80", [0x0E, 0, 5, 2] + [9] * 124), s("00807F", [0x0E, 0, 5, 2] + [9] * 123)
    s("0E000502", [9] * 1496), s("0E000502", [9] * 1497), s("00", [1, 0x78] * 749), s("0085D9", [0x16] * 1497), s("0085D8", [0x16] * 1497)
    note("joining: 7 bits to 127, 15 bits from 128; octet 0 even for one PDU")
    j([3, 4], "18800520800608"), j([3], "188005"), j([127], [7] * 127), j([128], [7] * 128), j([127, 128], [7] * 255)
    j([]), j([], "AA"), j([0], ""), j([1, 0], "AA"), j([2], "AA"), j([1], "AABB"), j([1497], [7] * 1497), j([1498], [7] * 1498), j([1500], [7] * 1500), j([1501], [7] * 1501)
    j([2 ** 64 - 1, 2], "AA"), j([750, 745], [7] * 1495), j([750, 746], [7] * 1496), j([1] * 64, [7] * 64)


reading()
writing()
datagrams()
folder = pathlib.Path(__file__).resolve().parent / "codec_cases"
files = {"commands.txt": "\n".join(lines) + "\n", "expected.txt": "\n".join(expected) + "\n"}
if "--check" in sys.argv[1:]:
    wrong = [name for name, text in files.items() if (folder / name).read_text() != text]
    sys.exit("codec_cases: " + ", ".join(wrong) + " differ from document 01 as read here" if wrong else 0)
for name, text in files.items():
    (folder / name).write_text(text)
print("%d cases" % sum(not x.startswith("#") for x in lines))
