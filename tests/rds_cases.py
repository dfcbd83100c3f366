#!/usr/bin/env python3
"""Writes the cases of the Reliable Data Service and what they must give: tests/rds_cases/commands.txt and expected.txt.

The worked examples 1 to 32 of docs/RDS.md (section 10), each with the words that its row names (section 6 numbers them), and what
`rds_write` refuses (section 6): nothing here is taken from the definitions or the code, so what host/scenarios prints is compared
with a second opinion.
usage: tests/rds_cases.py [--check]   (--check: only say whether both files are as this script writes them)
"""
import pathlib
import sys

from notation import text_of

A = '00112233445566778899AABBCCDDEEFF03777470'
B = A[:-2] + '71'

# word numbers of a frame (section 6)
KIND, ADS, SOURCE, DESTINATION, ACK, NS, NR, R, NU, M, RESPONSE, START, LENGTH, ACTION, STATUS = range(15)
FROM, TO, APP, APP_LENGTH, FORMAT, SOME, BITMAP, ENTRIES = range(15, 23)
I, S, UI, U = 1, 2, 3, 4
ERROR, DISCONNECT, ACCEPT, SET_ACK_MODE, MANAGE_PORT, SET_PARAMETERS = 1, 4, 6, 7, 10, 11


def frame(kind, ports=None, **named):
    words = {KIND: kind}
    if ports:
        words.update({ADS: 1, SOURCE: ports[0], DESTINATION: ports[1]})
    words.update({globals()[name.upper()]: value for name, value in named.items()})
    return words


def entry(k, source, destination, start, length, form=0):
    at = 24 + 5 * k
    return {at: source, at + 1: destination, at + 2: start, at + 3: length, at + 4: form}


# who sent it ('u' UE, 'n' network, 'un' either), the frame, and what it reads as (None: 16)
FRAMES = [
    ('1', 'un', '400E000502', frame(UI, start=1, length=4)),
    ('1', 'un', '4B35AA', frame(UI, (3, 5), nu=3, start=2, length=1)),
    ('2', 'un', '50AA', frame(UI, start=1, length=1)),
    ('2', 'un', '40', frame(UI, start=1)),
    ('3', 'un', '220BAA', frame(I, ack=1, ns=2, r=2, start=2, length=1)),
    ('3', 'un', '184312', frame(I, (1, 2), nr=2, start=3)),
    ('4', 'un', '6043', frame(S, nr=2)),
    ('4', 'un', '6FE751', frame(S, (5, 1), ack=1, nr=7, r=1)),
    *[('5', 'un', f, None) for f in ('48', 'C0AA', '', '220AAA', '22', '280B', '604300', '6440')],
    ('6', 'u', '7004', frame(U, m=DISCONNECT)),
    ('6', 'u', '7406', frame(U, m=ACCEPT, response=1, start=2)),
    ('6', 'n', '7004', None),
    ('6', 'n', '7406', None),
    ('7', 'n', '7001', frame(U, m=ERROR, response=1)),
    ('7', 'u', '7001', frame(U, m=ERROR)),
    ('8', 'u', '7BF73501', frame(U, (3, 5), m=SET_ACK_MODE, start=3, length=1)),
    ('9', 'u', '700B000100', frame(U, m=SET_PARAMETERS, start=2, length=3)),
    ('9', 'u', '700B0700', frame(U, m=SET_PARAMETERS, start=2, length=2)),
    ('9', 'u', '700B', frame(U, m=SET_PARAMETERS, start=2)),
    *[('10', 'u', f, None) for f in ('700400', '7002', '70', '700B00020000', '700B0001', '700B07')],
    ('11', 'u', '700A0135' + A, frame(U, m=MANAGE_PORT, action=1, to=5, app=4, app_length=20) | {FROM: 3}),
    ('12', 'u', '73AAF535' + A + 'FB', frame(U, m=MANAGE_PORT, action=5, to=5, app=4, app_length=20, format=3) | {FROM: 3}),
    ('13', 'n', '700A0100', frame(U, m=MANAGE_PORT, response=1, action=1)),
    ('13', 'n', '700A0202', frame(U, m=MANAGE_PORT, response=1, action=2, status=2)),
    ('13', 'n', '700A050403', frame(U, m=MANAGE_PORT, response=1, action=5, format=4, status=3)),
    ('14', 'u', '700A03', frame(U, m=MANAGE_PORT, action=3)),
    ('14', 'u', '700A032380', frame(U, m=MANAGE_PORT, action=3, some=1, bitmap=32802)),
    ('15', 'n', '700A1353' + A, frame(U, m=MANAGE_PORT, response=1, action=3, entries=1) | entry(0, 5, 3, 4, 20)),
    ('15', 'n', '700A1353' + A + '0180', frame(U, m=MANAGE_PORT, response=1, action=3, entries=1, some=1, bitmap=32768) | entry(0, 5, 3, 4, 20)),
    ('16', 'u', '700A2735' + A + '0146' + B + 'F9',
     frame(U, m=MANAGE_PORT, action=7, entries=2) | entry(0, 3, 5, 4, 20, 1) | entry(1, 4, 6, 26, 20, 1)),
    *[('17', 'n', f, None) for f in ('700A0104', '700A010000', '700A0500', '700A04', '700A1353' + A + '80', '700A2353' + A, '700A0353' + A)],
    *[('18', 'u', f, None) for f in ('700A', '700A0835' + A, '780A350135' + A, '700A0135' + A + '00', '700A0322', '700A03228000')],
]

# "Back": what `rds_write` makes of what was read, where it differs
BACK = {
    '50AA': '40AA',
    '184312': '084312',
    '6FE751': '6CE751',
    '7BF73501': '78073501',
    '73AAF535' + A + 'FB': '700A0535' + A + '03',
    '700A032380': '700A032280',
    '700A1353' + A + '0180': '700A1353' + A + '0080',
    '700A2735' + A + '0146' + B + 'F9': '700A2735' + A + '0146' + B + '01',
}

# section 6, `rds_put`: ports, source, destination, number; the datagram as it is written on the line and as octets; length and next number, or a refusal
PUTS = [
    ((0, 0, 0, 7), '0E000502', '470E000502', 0),
    ((1, 3, 5, 2), '0E000502', '4A350E000502', 3),
    ((0, 0, 0, 7), '00*1500,', '47' + '00' * 1500, 0),
    ((0, 0, 0, 7), '', None, 11),
    ((0, 0, 0, 7), '00*1501,', None, 11),
    ((0, 0, 0, 8), '0E000502', None, 10),
    ((0, 3, 0, 7), '0E000502', None, 10),
]


# section 6, `rds_write`: words, octets, and the frame (None: 16); a frame, each word that can't be, each part that isn't there, and what
# section 3 refuses
UI_AA = {KIND: UI, ADS: 1, SOURCE: 3, DESTINATION: 5, NU: 3, LENGTH: 1}
QUERY = {KIND: U, M: MANAGE_PORT, ACTION: 3, SOME: 1, BITMAP: 32802}
ASKED = {KIND: U, M: MANAGE_PORT, ACTION: 5, FROM: 3, TO: 5, APP_LENGTH: 20, FORMAT: 3}
WRITES = [
    (UI_AA, 'AA', '4B35AA'),
    (QUERY, '', '700A032280'),
    (ASKED, A, '700A0535' + A + '03'),
    *[(UI_AA | {word: 1}, 'AA', None) for word in (ACK, NS, M, ACTION, ENTRIES, 23, 24, 99)],
    *[(UI_AA | wide, 'AA', None) for wide in ({KIND: 0}, {KIND: 5}, {ADS: 2}, {SOURCE: 16}, {DESTINATION: 16}, {NU: 8})],
    *[(QUERY | wide, '', None) for wide in ({SOME: 2}, {SOME: 0}, {BITMAP: 65536}, {BITMAP: 1}, {ACTION: 16}, {M: 16}, {RESPONSE: 2})],
    *[(ASKED | wide, A, None) for wide in ({FROM: 16}, {TO: 16}, {FORMAT: 8}, {ACTION: 1})],
    (UI_AA | {START: 1, LENGTH: 0}, 'AA', '4B35'),
    (UI_AA | {START: 1}, 'AA', None),
    (UI_AA | {START: 2, LENGTH: 0}, 'AA', None),
    (UI_AA | {START: 2 ** 64 - 1, LENGTH: 2}, 'AA', None),
    *[(ASKED | {APP_LENGTH: length}, A, None) for length in (0, 16, 19, 21)],
    (ASKED | {APP: 1}, 'AA' + A, '700A0535' + A + '03'),
    (ASKED | {ADS: 1}, A, None),
    (ASKED | {RESPONSE: 1}, A, None),
    ({KIND: U, M: 2}, '', None),
    ({KIND: U, M: DISCONNECT, RESPONSE: 1}, '', None),
    ({KIND: U, M: SET_PARAMETERS, LENGTH: 3}, '000100', '700B000100'),
    ({KIND: U, M: SET_PARAMETERS, LENGTH: 2}, '000100', None),
    ({KIND: U, M: MANAGE_PORT, RESPONSE: 1, ACTION: 1, STATUS: 4}, '', None),
    ({KIND: UI, LENGTH: 1520}, '00*1520,', '40' + '00' * 1520),
    ({KIND: UI, LENGTH: 1521}, '00*1521,', None),
]


# words of the answer of rds_receive and rds_port (section 6)
SENT, EVENT, TOLD_ACTION, TOLD_STATUS, OWN, PEERS, TOLD_FORMAT, CHANGED, AT, LEN, TOLD_M, WHOM = range(12)
APP_OCTETS = len(A) // 2


def fresh(network=0, formats=0):
    return f'f {network} {formats}', {}, ''


def asked(line, frame):
    """One of our commands: the frame that is sent."""
    return line, {SENT: len(frame) // 2}, frame


def reserve(own, peers, app, frame, with_format=0):
    return asked(f'r {own} {peers} {with_format} /{app}', frame)


def release(own, frame):
    return asked(f'l {own}', frame)


def refused(line, number):
    return line, number, ''


def answered(frame, sent, action, own, peers, status=0, form=0, changed=0):
    """Event 1: a command of the peer, with its Application ID of 20 octets at 4."""
    words = {SENT: len(sent) // 2, EVENT: 1, TOLD_ACTION: action, TOLD_STATUS: status, OWN: own, PEERS: peers, TOLD_FORMAT: form,
             CHANGED: changed, AT: 4, LEN: APP_OCTETS}
    return f'v {frame}', words, sent


def settled(frame, action, own, peers, status=0, form=0, changed=0):
    """Event 2: our command was answered."""
    return f'v {frame}', {EVENT: 2, TOLD_ACTION: action, TOLD_STATUS: status, OWN: own, PEERS: peers, TOLD_FORMAT: form, CHANGED: changed}, ''


def unbuilt(frame, sent, m, action=0):
    return f'v {frame}', {SENT: len(sent) // 2, EVENT: 3, TOLD_ACTION: action, TOLD_M: m}, sent


def unheard(frame):
    return f'v {frame}', {}, ''


def kept(port, whom, peers, app, form=0):
    return f'q {port}', {SENT: len(app) // 2, OWN: port, PEERS: peers, TOLD_FORMAT: form, WHOM: whom}, app


def free(port):
    return f'q {port}', {}, ''


RESERVE = '700A0135' + A
RELEASE = '700A0235' + A
ON_20 = [fresh(), reserve(3, 5, A, RESERVE), settled('700A0100', 1, 3, 5, changed=1)]

# section 10, "Calls": the line, the words other than 0 (or a refusal), the output
CALLS = [
    ('20', [fresh(), reserve(3, 5, A, RESERVE), refused(f'r 4 6 0 /{B}', 9), settled('700A0100', 1, 3, 5, changed=1), kept(3, 1, 5, A),
            unheard('700A0100'), refused(f'r 3 7 0 /{B}', 9)]),
    ('21', ON_20 + [release(3, RELEASE), unheard('700A0100'), settled('700A0202', 2, 3, 5, status=2, changed=1), free(3), refused('l 3', 8)]),
    ('22', ON_20 + [release(3, RELEASE), settled('700A0201', 2, 3, 5, status=1), kept(3, 1, 5, A), release(3, RELEASE),
                    settled('7001', 2, 3, 5, status=256), kept(3, 1, 5, A), free(0)]),
    ('23', [fresh(), answered('740A0124' + A, '740A0100', 1, 4, 2, changed=1), answered('740A0124' + A, '740A0100', 1, 4, 2),
            answered('740A0124' + B, '740A0101', 1, 4, 2, status=1), answered('740A0134' + A, '740A0101', 1, 4, 3, status=1)]),
    ('24', [fresh(), answered('740A0124' + A, '740A0100', 1, 4, 2, changed=1), answered('740A0224' + B, '740A0202', 2, 4, 2, status=2),
            answered('740A0294' + A, '740A0200', 2, 4, 9, changed=1), answered('740A0294' + A, '740A0202', 2, 4, 9, status=2)]),
    ('25', [fresh(), reserve(3, 5, A, RESERVE), answered('740A0163' + A, '740A0101', 1, 3, 6, status=1),
            answered('740A0153' + B, '740A0101', 1, 3, 5, status=1), answered('740A0153' + A, '740A0100', 1, 3, 5, changed=1),
            kept(3, 2, 5, A), settled('700A0100', 1, 3, 5, changed=1), kept(3, 1, 5, A)]),
    ('26', [fresh(), answered('740A0524' + A + '07', '740A050003', 5, 4, 2, status=3),
            fresh(formats=6), answered('740A0524' + A + '07', '740A050200', 5, 4, 2, form=2, changed=1),
            answered('740A0524' + A + '07', '740A050200', 5, 4, 2, form=2), answered('740A0524' + A + '04', '740A050001', 5, 4, 2, status=1),
            answered('740A0525' + A + '01', '740A050603', 5, 5, 2, status=3, form=6)]),
    ('27', [fresh(), answered('740A0120' + A, '740A0100', 1, 0, 2), answered('740A0220' + A, '740A0200', 2, 0, 2),
            answered('740A0104' + A, '740A0100', 1, 4, 0, changed=1), kept(4, 2, 0, A)]),
    ('28', [fresh(), unbuilt('740A03', '7401', 10, action=3), unbuilt('7C0724', '7C0142', 7), unheard('7401'), refused('v 700A0104', 16)]),
    ('29', [fresh(formats=3), reserve(3, 0, A, '700A0530' + A + '03', with_format=1), asked('a', '700A0530' + A + '03'),
            settled('700A050200', 5, 3, 0, form=2, changed=1), fresh(), refused(f'r 3 0 1 /{A}', 9)]),
    ('30', [fresh(), reserve(3, 5, A, RESERVE), ('d', {}, ''), refused('d', 8), refused('a', 8), unheard('700A0100'), refused(f'r 0 5 0 /{A}', 10),
            refused(f'r 3 16 0 /{A}', 10), refused(f'r 3 5 0 /{A[:-2]}', 11), refused('q 16', 10)]),
    ('31', ON_20 + [release(3, RELEASE), answered('740A0253' + A, '740A0200', 2, 3, 5, changed=1), answered('740A0153' + A, '740A0101', 1, 3, 5, status=1),
                    settled('700A0200', 2, 3, 5), answered('740A0153' + A, '740A0100', 1, 3, 5, changed=1)]),
    ('32', [fresh(network=1), reserve(3, 5, A, '740A0135' + A), settled('740A0100', 1, 3, 5, changed=1),
            answered('700A0253' + A, '700A0200', 2, 3, 5, changed=1)]),
]


def shown(words):
    return ''.join(f' {k}={words[k]}' for k in sorted(words) if words[k])


def taken(words):
    """PART of the words of a frame (section 6)."""
    get = words.get
    kind = words[KIND]
    data = kind in (I, UI)
    part = {0: kind, 3: get(ADS, 0), 4: get(SOURCE, 0), 5: get(DESTINATION, 0), 6: get(NS, 0) if kind == I else get(NU, 0)}
    if data:
        part.update({1: get(START, 0), 2: get(LENGTH, 0)})
    return part


def cases():
    number = None
    for n, senders, octets, words in FRAMES:
        if n != number:
            number = n
            yield f'# RDS.md, section 10, {n}', ''
        for sender in senders:
            line = f'{sender} {octets}'.rstrip()
            if words is None:
                yield line, ': refused 16: refused 16'
            else:
                back = text_of(bytes.fromhex(BACK.get(octets, octets)))
                yield line, f': ok{shown(words)}: ok{shown(taken(words))}: ok {back}'
    yield '# RDS.md, section 6, what rds_write refuses', ''
    for words, written, octets in WRITES:
        line = f'w u{shown(words)} /{written}'
        yield line, ': refused 16' if octets is None else f': ok {text_of(bytes.fromhex(octets))}'
    yield '# RDS.md, section 10, 19', ''
    for numbers, written, octets, last in PUTS:
        line = 'p ' + ' '.join(map(str, numbers)) + f' /{written}'
        if octets is None:
            yield line, f': refused {last}'
        else:
            yield line, f': ok{shown({0: len(octets) // 2, 12: last})} {text_of(bytes.fromhex(octets))}'
    for n, calls in CALLS:
        yield f'# RDS.md, section 10, {n}', ''
        for line, words, octets in calls:
            if isinstance(words, int):
                yield line, f': refused {words}'
            else:
                yield line, f': ok{shown(words)}' + (f' {text_of(bytes.fromhex(octets))}' if octets else '')


def main():
    lines = list(cases())
    folder = pathlib.Path(__file__).resolve().parent / 'rds_cases'
    texts = {'commands.txt': ''.join(line + '\n' for line, _ in lines), 'expected.txt': ''.join(line + result + '\n' for line, result in lines)}
    if sys.argv[1:] == ['--check']:
        wrong = [name for name, text in texts.items() if (folder / name).read_text() != text]
        print('rds_cases: as written' if not wrong else 'rds_cases: other than written: ' + ', '.join(wrong))
        sys.exit(1 if wrong else 0)
    for name, text in texts.items():
        (folder / name).write_text(text)


main()
