#!/usr/bin/env bash
# Talks to Kannel, a WAP gateway, over loopback through the engine as initiator: Connect, Get, Disconnect.
# Installs Kannel where it isn't there. Prints the exchange; the last line counts the cases; exit status 1 where one failed.
#
# Nothing with the TID's top bit 1 is sent: on such a TIDve wapbox 1.4.5, with a configuration as below, ended by an assertion.
# The engine as initiator never sends one.
set -euo pipefail
cd "$(dirname "$0")/../.."
. tests/interop/setup.sh
need bearerbox kannel
need wapbox kannel
need python3 python3

text='12.5 ug/m3'
run="$PWD/$work/kannel"
rm -rf "$run"
mkdir -p "$run"

started=()
stop() {
    for pid in "${started[@]}"; do
        kill "$pid" 2>/dev/null || true
    done
    wait
}
trap stop EXIT
trap 'exit 1' INT TERM

# Starts a program with its output in a file of its name.
start() {
    "${@:2}" >"$run/$1.out" 2>&1 &
    started+=("$!")
}

all_run() {
    for pid in "${started[@]}"; do
        kill -0 "$pid" || return
    done
}

# Waits up to ten seconds for a command to succeed.
wait_for() {
    for _ in $(seq 100); do
        "${@:2}" >/dev/null 2>&1 && return
        sleep 0.1
    done
    give_up "$1; see $run"
}

# Kannel takes these two of each interface; the others may be any that are free.
free_ports() {
    python3 - <<'PYTHON'
import socket
import sys

for port in (9200, 9201):
    try:
        socket.socket(socket.AF_INET, socket.SOCK_DGRAM).bind(("127.0.0.1", port))
    except OSError as error:
        why = f"UDP port {port} of 127.0.0.1 can't be had ({error.strerror})"
        print(f"{why}: stop what uses it (service kannel stop) and try again")
        sys.exit(1)
tcp = [socket.socket() for _ in range(2)]
for each in tcp:
    each.bind(("127.0.0.1", 0))
print(*(each.getsockname()[1] for each in tcp))
PYTHON
}
ports="$(free_ports)" || give_up "$ports"
read -r admin_port wapbox_port <<<"$ports"

cat >"$run/kannel.conf" <<CONF
group = core
admin-port = $admin_port
admin-interface = "127.0.0.1"
admin-password = interop
wapbox-port = $wapbox_port
wdp-interface-name = "127.0.0.1"
log-file = "$run/bearerbox.log"
log-level = 0
box-deny-ip = "*.*.*.*"
box-allow-ip = "127.0.0.1"

group = wapbox
bearerbox-host = 127.0.0.1
log-file = "$run/wapbox.log"
log-level = 0
CONF

start served python3 tests/interop/served.py "$text" "$run/port"
start bearerbox bearerbox "$run/kannel.conf"
wait_for "bearerbox didn't start" grep -q 'MAIN: Start-up done' "$run/bearerbox.log"
start wapbox wapbox "$run/kannel.conf"
wait_for "wapbox didn't reach bearerbox" grep -q 'Connected to bearerbox' "$run/wapbox.log"
wait_for "the HTTP server didn't start" test -s "$run/port"

# Its status says no more than its last line.
program browse 127.0.0.1:9201 "http://127.0.0.1:$(cat "$run/port")" "$text" | tee "$run/browse.log" | sed '$d' || true
count_from "$run/browse.log"

check "Kannel's log has our Abort as an event of its transaction" grep -q 'event RcvAbort' "$run/wapbox.log"
check "Kannel's log has our last Acks as events of their transactions" grep -q 'RESULT_RESP_WAIT, event RcvAck' "$run/wapbox.log"
check "Kannel still runs" all_run
finish
