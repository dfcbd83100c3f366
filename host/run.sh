#!/usr/bin/env bash
# Builds the proved library where it isn't there, starts a gateway on a free port of loopback, and lets a reader ask it over a
# line with loss, duplication and delay. Ends with 0 if each sampler has the outcome that host/examples/results.csv says.
# Arguments go to the reader: host/run.sh --loss 40 --seed 7; with --rds both put their datagrams in frames of the Reliable Data Service.
set -euo pipefail
cd "$(dirname "$0")/.."
case " $* " in *" --help "*) sed -n '2,4s/^# //p' host/run.sh && exit 0 ;; esac
. host/tools.sh

build --package gateway --package reader
work="$(mktemp -d)"
gateway=""

stop_gateway() {
    [ -z "$gateway" ] || kill "$gateway" 2>/dev/null || true
    [ -z "$gateway" ] || wait "$gateway" || true
    gateway=""
}
trap 'stop_gateway; rm -rf "$work"' EXIT

frames=()
case " $* " in *" --rds "*) frames=(--rds) ;; esac

# The gateway loses nothing: an Abort is sent once, and where it is lost the outcome truly is no answer.
$runner "$programs/gateway" --listen 127.0.0.1:0 "${frames[@]}" --duplicate 20 --delay 60 host/examples/results.csv >"$work/gateway.log" 2>&1 &
gateway=$!
for _ in $(seq 100); do
    [ -s "$work/gateway.log" ] && break
    sleep 0.1
done
address="$(sed -n '1s/^gateway: listening on \([^ ]*\) .*/\1/p' "$work/gateway.log")"
if [ -z "$address" ]; then
    echo "the gateway didn't start:"
    cat "$work/gateway.log"
    exit 1
fi

faults=()
for fault in "--loss 20" "--duplicate 20" "--delay 60"; do
    case " $* " in *" ${fault% *} "*) ;; *) faults+=($fault) ;; esac
done
echo "A reader asks the gateway at $address over a line that loses, doubles and delays datagrams."
echo
status=0
$runner "$programs/reader" --gateway "$address" "${faults[@]}" "$@" host/examples/samplers.csv | tee -i "$work/table" || status=$?
[ "$status" -le 1 ] || exit "$status"
stop_gateway
echo
tail -n $((3 + ${#frames[@]})) "$work/gateway.log"

# What the laboratory's file says, and what the reader's table shows.
echo
awk '
    FILENAME ~ /samplers.csv$/ { if (FNR > 1) samplers++; next }
    FILENAME ~ /results.csv$/ { if (FNR > 1) { split($0, cell, ","); answer[cell[1]] = cell[2]; detail[cell[1]] = cell[3] } next }
    /^SAMPLER/ { outcome = index($0, "OUTCOME"); next }
    /^$/ { exit }
    {
        said = substr($0, outcome); sub(/  +/, " ", said)
        kind = answer[$1]
        expected = "ABORT by the user: .*[(]reason " (kind == "abort" ? detail[$1] : 10) "[)]"
        if (kind == "silent" || kind == "damaged") expected = "ABORT by the provider: "
        gsub(/[.]/, "[.]", detail[$1])
        if (kind == "value") expected = "VALUE " detail[$1] "$"
        if (kind == "empty") expected = "EMPTY RESULT "
        if (kind == "unheard") expected = "NO ANSWER none came "
        if (said ~ "^" expected) right++; else print "sampler " $1 " has: " said
    }
    END {
        printf "%d of %d samplers have the outcome that the laboratory'\''s file says.\n", right, samplers
        exit (right != samplers)
    }' host/examples/samplers.csv host/examples/results.csv "$work/table"
