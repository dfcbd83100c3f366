#!/usr/bin/env python3
"""Writes how many damaged tables must be refused, tests/damage/expected.txt, and what salvage must make of them, tests/damage/salvaged.txt.

An independent reading of document 01's "well formed" (document 02 as far as it has landed: L2, L6, L4, L11, L12) over the layout of docs/TABLE.md; nothing
here is taken from the definitions or the code.
usage: tests/damage.py [--check]
"""
import functools
import pathlib
import struct
import sys

HEADER, RECORD, COUNT = 624, 176, 2
# where the fields of docs/TABLE.md start, RCR_MAX with AEC_MAX, A with W, R with R, RCR with AEC and flags with the exit length taken together
FIELDS = [0, 8, 10, 12, 20, 92, 96, 97, 98, 112] + [HEADER + RECORD * i + at for i in range(COUNT) for at in (0, 1, 2, 4, 6, 8, 16, 20, 24, 25, 29, 48)] + [HEADER + RECORD * COUNT]


def number(octets):
    return int.from_bytes(octets, "little")


# A change of one part leaves the judgement of the others, which is remembered.
@functools.lru_cache
def header_ok(t):
    intervals, caches = struct.unpack("<20I", t[12:92]), struct.unpack("<256H", t[112:HEADER])
    modes, limit = t[96], number(t[92:96])
    return (number(t[0:8]) <= 10 ** 12 and number(t[8:10]) <= 32767 and t[10] <= 8 and t[11] <= 8
            and min(intervals) >= 1 and max(intervals) <= 86400000 and t[97] <= 1 and not any(t[98:112]) and max(caches) <= 32768
            and (limit == 0 if modes == 0 else modes == 1 and 1 <= limit <= 86400000))


@functools.lru_cache
def record_ok(r, rcr_max, aec_max):
    if r[0] == 0:
        return not any(r)
    return (r[0] <= 11 and number(r[2:4]) <= 32767 and r[4] <= rcr_max and r[5] <= aec_max and r[6] <= (31 if r[0] <= 4 else 15) and r[7] <= 128
            and number(r[8:16]) <= 10 ** 12 + 86400000 and number(r[16:20]) <= 1024 and number(r[20:24]) <= 86400000
            and (r[24] == 0 or 6 <= r[24] <= 15) and number(r[25:29]) <= (1028 * (rcr_max + 1) if r[0] <= 4 else 0) and not any(r[29:48]))


def name(r):
    return (0 if r[0] <= 4 else 1, r[1], number(r[2:4]))


def records_of(t):
    return [bytes(t[HEADER + RECORD * i:HEADER + RECORD * (i + 1)]) for i in range(COUNT)]


def well_formed(t):
    records = records_of(t)
    live = [name(r) for r in records if r[0]]
    return header_ok(bytes(t[:HEADER])) and all(record_ok(r, t[10], t[11]) for r in records) and len(set(live)) == len(live)


def fresh():
    t = bytearray(HEADER + RECORD * COUNT)
    t[8:10] = (7).to_bytes(2, "little")
    t[10], t[11], t[97] = 4, 5, 1
    for k, value in enumerate([1000, 2000] + [3000] * 9 + [4000] * 9):
        t[12 + 4 * k:16 + 4 * k] = value.to_bytes(4, "little")
    return t


def damaged(t):
    counts = []
    for at in range(len(t)):
        was, refused = t[at], 0
        for value in range(256):
            t[at] = value
            refused += not well_formed(t)
        t[at] = was
        counts.append(refused)
    return ["octets %d to %d: %d changes refused" % (a, b, sum(counts[a:b])) for a, b in zip(FIELDS, FIELDS[1:])]


@functools.lru_cache
def salvaged(records, rcr_max, aec_max):
    """02, L12: the places that salvage changes, with their reasons, and what is left of the records."""
    reasons, kept = {}, []
    for place, r in enumerate(records):
        if not record_ok(r, rcr_max, aec_max):
            reasons[place] = 1 if r[0] else 2
    for place, r in enumerate(records):
        if r[0] and place not in reasons:
            if name(r) in kept:
                reasons[place] = 3
            kept.append(name(r))
    left = [r for place, r in enumerate(records) if place not in reasons]
    said = ", ".join("place %d reason %d" % (place, reasons[place]) for place in sorted(reasons)) or "nothing"
    return said, sum(r[0] != 0 for r in left), sum(map(sum, left))


def all_salvaged(t):
    """For each field: how often each is said of the table with one octet changed, how many live records are left, and the sum of the octets of all records that are left."""
    lines = []
    for a, b in zip(FIELDS, FIELDS[1:]):
        counts, live, octets = {}, 0, 0
        for at in range(a, b):
            was = t[at]
            for value in set(range(256)) - {was}:
                t[at] = value
                # 15 is the header's test by itself, whatever the records hold.
                said, left, left_octets = salvaged(tuple(records_of(t)), t[10], t[11]) if header_ok(bytes(t[:HEADER])) else ("refused 15", 0, 0)
                counts[said], live, octets = counts.get(said, 0) + 1, live + left, octets + left_octets
            t[at] = was
        lines.append("octets %d to %d: %s; %d live records left, octets %d" % (a, b, "; ".join("%d %s" % (counts[said], said) for said in sorted(counts)), live, octets))
    return lines


def put_cost(t, place, octets):
    """What the record has cost."""
    t[HEADER + RECORD * place + 25:HEADER + RECORD * place + 29] = octets.to_bytes(4, "little")


def salvage_cases():
    """Two live records, and the same with a cost; two of one name, the first with exit information; one out of range before one that is free and not zero; two of one name, the first out of range."""
    t = fresh()
    t[HEADER], t[HEADER + RECORD], t[HEADER + RECORD + 1] = 2, 8, 1
    yield "an initiator and a responder", t
    put_cost(t, 0, 5140)
    yield "the same with the highest cost in the first record", t
    put_cost(t, 0, 0)
    t[HEADER + RECORD], t[HEADER + RECORD + 1], t[HEADER + 7] = 3, 0, 2
    t[HEADER + 48:HEADER + 52] = bytes([170, 187, 204, 221])
    yield "two records of one name", t
    t[HEADER + 4] = 5
    yield "the same, RCR of the first over RCR_MAX", t
    t[HEADER + RECORD] = 0
    t[HEADER + 2 * RECORD - 1] = 1
    yield "the same, the second free and not zero", t


table = fresh()
text = ["a fresh table of two records"] + damaged(table)
table[HEADER], table[HEADER + RECORD], table[HEADER + RECORD + 1] = 2, 2, 1
text += ["the same with both records live"] + damaged(table)
table[HEADER + 6], table[HEADER + RECORD] = 16, 8
text += ["an initiator whose Invoke carries TIDnew, and a responder"] + damaged(table)
table[92], table[96] = 1, 1
table[HEADER + 20:HEADER + 24] = (86400000).to_bytes(4, "little")
text += ["the same with a waiting limit of 1, the first record with the longest in force"] + damaged(table)
table[HEADER + 24], table[HEADER + RECORD + 24] = 6, 15
text += ["the same with the identity of an unknown item in both records"] + damaged(table)
put_cost(table, 0, 5140)
text += ["the same with the highest cost in the first record"] + damaged(table)
salvaged_text = ["a fresh table of two records"] + all_salvaged(fresh())
for title, damaged_table in salvage_cases():
    salvaged_text += [title] + all_salvaged(damaged_table)
folder = pathlib.Path(__file__).resolve().parent / "damage"
files = {"expected.txt": "\n".join(text) + "\n", "salvaged.txt": "\n".join(salvaged_text) + "\n"}
if "--check" in sys.argv[1:]:
    wrong = [file for file, octets in files.items() if (folder / file).read_text() != octets]
    sys.exit("damage: " + ", ".join(wrong) + " differ from document 01 as read here" if wrong else 0)
for file, octets in files.items():
    (folder / file).write_text(octets)
print("%d lines" % sum(octets.count("\n") for octets in files.values()))
