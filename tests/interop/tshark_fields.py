"""Compares each PDU's fields as tshark shows them with what the library reads in it.

Arguments: the lines of every_pdu, and tshark's PDML of a capture of the same datagrams in the same order.
A field is one case, with all its values where PDUs are joined; one that only one of the two has is a failure.
The last line counts them.

Where tshark speaks otherwise than section 8, though its values are the same:
- GTR and TTR are one field of two bits, trailer_flags, and 3 is called "Re-assembly not supported" (true to 8.2.2).
- The title of an Abort of a user says "Type: User (0)"; the field abort.type has 1, and that is compared.
- RID of an Abort isn't a field there either, and the reserved bit of an Ack isn't shown.
- An Info item's data is shown without a value: its length is compared, and its octets as those of the whole item.
- Of an Error item (request L4) nothing is shown but its identity: its octets, error code and identity among them, are compared as
  those of the whole item.
- The title of a joined datagram counts one PDU too many; the sizes and fields of the PDUs in it are right.
- A length of two octets in a joined datagram is shown with its leading 1 (32,768 too much), which is taken off here.
- User data of a WTP PDU is taken for WSP. With that dissector switched off it is plain data; empty data is no field.
"""

import sys
import xml.etree.ElementTree as tree


def expected_lines(path):
    with open(path, encoding="utf-8") as lines:
        for line in lines:
            meant, octets, fields = line.rstrip("\n").split("\t")
            yield meant, octets, gathered(field.split("=") for field in fields.split(" "))


def gathered(fields):
    """Names with all their values, in order."""
    values = {}
    for name, value in fields:
        values.setdefault(name, []).append(value)
    return values


def shown_fields(packet):
    """The fields of one packet, by the names that every_pdu uses."""
    for field in packet.iter("field"):
        name, value = field.get("name"), field.get("value")
        if name == "data.data":
            yield "data", value
        elif name == "wtp.tpi":
            yield name, value
            yield "wtp.tpi.identity", str(int(field.get("show"), 16))
        elif name == "wtp.sub_pdu_size" and field.get("size") == "2":
            yield name, str(int(value, 16) - 0x8000)
        elif name == "wtp.tpi.info":
            yield "wtp.tpi.info.length", field.get("size")
        elif name.startswith("wtp."):
            yield name, str(int(value, 16))


def compare(meant, octets, expected, shown):
    """Passed and failed cases of one datagram."""
    names = sorted(expected.keys() | shown.keys())
    wrong = [name for name in names if expected.get(name) != shown.get(name)]
    for name in wrong:
        print(f"FAILED: {meant}: {octets[:60]}: {name}: library {expected.get(name)}, tshark {shown.get(name)}")
    if not wrong:
        print(f"ok: {meant}: {len(names)} fields")
    return len(names) - len(wrong), len(wrong)


def main():
    lines = list(expected_lines(sys.argv[1]))
    packets = tree.parse(sys.argv[2]).getroot().findall("packet")
    passed, failed = 0, 0
    if len(lines) != len(packets):
        print(f"FAILED: {len(lines)} datagrams were sent, and {len(packets)} are in the capture")
        failed += 1
    for (meant, octets, expected), packet in zip(lines, packets):
        good, wrong = compare(meant, octets, expected, gathered(shown_fields(packet)))
        passed, failed = passed + good, failed + wrong
    print(f"{passed} passed, {failed} failed")


main()
