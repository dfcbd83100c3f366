#!/usr/bin/env bash
# Every PDU that the engine can send, dissected by tshark field by field; and wtpdump over what tshark writes.
# Installs tshark where it isn't there. The last line counts the cases; exit status 1 where one failed.
set -euo pipefail
cd "$(dirname "$0")/../.."
. tests/interop/setup.sh
need tshark tshark
need text2pcap wireshark-common
need python3 python3

pdus="$work/every_pdu.tsv"
program every_pdu >"$pdus"

# tshark dissects WTP on UDP port 9201.
awk -F '\t' '{ print "000000 " $2 }' "$pdus" | text2pcap -q -u 9201,9201 - "$work/sent.pcapng" 2>"$work/text2pcap.log"
tshark -r "$work/sent.pcapng" -d udp.port==9201,wtp --disable-protocol wsp -T pdml >"$work/sent.pdml" 2>"$work/tshark.log"
python3 tests/interop/tshark_fields.py "$pdus" "$work/sent.pdml" | tee "$work/fields.log" | sed '$d'
count_from "$work/fields.log"

error_items() {
    local ack
    for ack in "last Ack of the initiator, exit information 128" "last Ack of the responder, exit information 0" "hold-on Ack"; do
        grep -q "^ok: $ack, Error item for identity 15: " "$work/fields.log" || return 1
    done
}
check "tshark reads last Acks and hold-on Acks with an Error item" error_items

# wtpdump on the PDUs as hex is what every capture of them must give, but for time, ends and the count.
lines() {
    sed -E '/^datagrams: /d; s/^#[0-9]+( [^ ]+ [^ ]+ > [^ ]+)?: //'
}
cut -f 2 "$pdus" | program wtpdump - >"$work/hex.out"
lines <"$work/hex.out" >"$work/hex.lines"

same_lines() {
    program wtpdump --port 9201 "$1" >"$work/capture.out"
    lines <"$work/capture.out" | cmp -s - "$work/hex.lines"
}
none_malformed() {
    grep -qx "datagrams: $(wc -l <"$pdus"), PDUs: $(wc -l <"$work/hex.lines"), malformed: 0" "$work/hex.out"
}
no_datagram() {
    program wtpdump --port 9200 "$1" | grep -q '^datagrams: 0, PDUs: 0, malformed: 0, '
}

check "wtpdump has one line a PDU, none malformed" none_malformed
tshark -r "$work/sent.pcapng" -w "$work/again.pcapng" 2>>"$work/tshark.log"
tshark -r "$work/sent.pcapng" -F pcap -w "$work/again.pcap" 2>>"$work/tshark.log"
editcap -F nsecpcap "$work/sent.pcapng" "$work/again.nsec.pcap"
tshark -r "$work/sent.pcapng" -T fields -e udp.payload >"$work/payload.txt" 2>>"$work/tshark.log"
for capture in sent.pcapng again.pcapng again.pcap again.nsec.pcap payload.txt; do
    check "wtpdump reads $capture" same_lines "$work/$capture"
done
check "wtpdump shows no datagram of another port" no_datagram "$work/again.pcap"
finish
