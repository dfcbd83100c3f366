#!/usr/bin/env bash
# Starts a gateway that nobody asks and prints what it costs while it waits: CPU time and context switches over ten seconds, from
# /proc, and how often it woke up from its start to the signal that ends it. It decides nothing.
set -euo pipefail
cd "$(dirname "$0")/.."
. host/tools.sh

build --package gateway
log="$(mktemp)"
$runner "$programs/gateway" --listen 127.0.0.1:0 host/examples/results.csv >"$log" 2>&1 &
gateway=$!
trap 'kill "$gateway" 2>/dev/null || true; rm -f "$log"' EXIT
for _ in $(seq 100); do
    grep -q listening "$log" && break
    sleep 0.1
done
sleep 1

# cost: clock ticks of CPU time and context switches so far, of all its threads.
cost() {
    local ticks switches
    ticks="$(awk '{ print $14 + $15 }' "/proc/$gateway/stat")"
    switches="$(cat /proc/"$gateway"/task/*/status | awk '/ctxt_switches/ { sum += $2 } END { print sum }')"
    echo "$ticks $switches"
}

read -r ticks switches < <(cost)
sleep 10
read -r ticks_then switches_then < <(cost)
echo "in ten seconds: $(((ticks_then - ticks) * 1000 / $(getconf CLK_TCK))) ms of CPU time, $((switches_then - switches)) context switches"
kill "$gateway"
wait "$gateway" || true
tail -n 1 "$log"
