#!/usr/bin/env python3
"""Writes what the bench cases without a star must give: crates/case_bench/stdout.

What they must give is what the engine of tests/engine.py gives, an independent reading of document 01; beside each case stands what
document 01 says of it.
usage: tests/bench_cases.py [--check]
"""
import pathlib
import sys

from engine import ends, make_fresh, request, settings, timer

RECORDS = 48


def before_pdu(length):
    """The octets of a length in a datagram: 7 bits, or 15 after a bit that is set."""
    return "%02x" % length if length < 128 else "%04x" % (32768 + length)


def requested(octets):
    return request(ends[0], 0, 5, 1, 0, bytes(octets))[0]


ends[0].records = RECORDS
settings[:] = [0, 0] + [1000] * 20 + [0] * 10
assert make_fresh(ends[0], 7) == 0
too_long = requested(1025)
assert too_long == 4, "1,025 gives 4"
longest = [requested(1024) for _ in range(RECORDS + 1)]
assert longest == [0] * RECORDS + [7], "data 1,024 accepted; a 48-record table takes no 49th"
fired = timer(ends[0], 1000)[1]
assert fired.fired and not fired.sent, "RCR_MAX 0 sends one Invoke"
lengths = [before_pdu(127), before_pdu(128)]
assert lengths == ["7f", "8080"], "length 127 is 7F, 128 is 80 80"
text = "lengths 127, 128; data 1,025, then 49 times 1,024; RCR_MAX 0, interval over: fired, sent\n"
for given in lengths + ["".join(map(str, [too_long] + longest)), int(fired.fired is not None), len(fired.sent)]:
    text += "%s\n" % given
path = pathlib.Path(__file__).resolve().parent.parent / "crates" / "case_bench" / "stdout"
if "--check" in sys.argv[1:]:
    sys.exit(0 if path.read_text() == text else "bench_cases: stdout differs from document 01 as read here")
path.write_text(text)
print("%d lines" % text.count("\n"))
