#!/usr/bin/env bash
# Runs the programs with wrong arguments, and gateway and reader with wrong files, hostile datagrams, a silent port and signals;
# the last line counts.
set -euo pipefail
cd "$(dirname "$0")/../.."
. host/tools.sh
. scripts/cases.sh
has python3 || fetch python3

build --workspace
work="$(mktemp -d)"
started=()

stop() {
    kill "$@" 2>/dev/null || true
    wait "$@" 2>/dev/null || true
}
trap '[ ${#started[@]} = 0 ] || stop "${started[@]}"; rm -rf "$work"' EXIT

# says STATUS TEXT PROGRAM ARGUMENTS...: the program ends with this status, prints this text, and doesn't panic.
says() {
    local expected="$1" text="$2" program="$3" status=0
    shift 3
    timeout 30 $runner "$programs/$program" "$@" >"$work/said" 2>&1 || status=$?
    if [ "$status" = "$expected" ] && grep -qF -- "$text" "$work/said" && ! grep -q panicked "$work/said"; then
        return 0
    fi
    echo "$program $*: status $status instead of $expected, or it doesn't say: $text"
    cat "$work/said"
    return 1
}

# gateway NAME ARGUMENTS...: starts one on a free port; sets `process` and `address`.
gateway() {
    local log="$work/$1.log"
    shift
    $runner "$programs/gateway" --listen 127.0.0.1:0 "$@" host/examples/results.csv >"$log" 2>&1 &
    process=$!
    started+=("$process")
    for _ in $(seq 100); do
        [ -s "$log" ] && break
        sleep 0.1
    done
    address="$(sed -n '1s/^gateway: listening on \([^ ]*\) .*/\1/p' "$log")"
}

# waits_for PATTERN FILE: until the file has it.
waits_for() {
    for _ in $(seq 100); do
        grep -qE -- "$1" "$2" 2>/dev/null && return 0
        sleep 0.1
    done
    echo "$2 doesn't say: $1"
    return 1
}

# file NAME LINES: a file of these lines.
file() {
    printf "$2" >"$work/$1"
    echo "$work/$1"
}

one="$(file one.csv 'sampler,site\n0041,Quay\n')"

echo "help and arguments"
for program in gateway reader salvage wtpdump compare scenarios bench browse; do
    check "$program --help" says 0 "xample: $program " "$program" --help --bad
    check "$program -h" says 0 "xample: $program " "$program" -h
    check "$program with a wrong switch" says 2 "$program: there is no switch --bad; $program --help says" "$program" --bad --help
done
for wrong in "wtpdump --port" "compare --calls" "bench --instructions"; do
    check "$wrong" says 2 "${wrong#* } needs a value; ${wrong% *} --help says how it is used" $wrong
done
check "wtpdump with a wrong number" says 2 '--port must be a number from 0 to 65535, not "65536"' wtpdump --port=65536 00
check "wtpdump without a datagram" says 2 "hex or a file is missing" wtpdump
check "compare with a wrong number" says 2 '--seed must be a number from 0 to 18446744073709551615, not "-1"' compare --seed -1
check "compare with a name" says 2 '"7" is one argument too many' compare 7
check "compare lists its rows" says 0 "TIDOK WAIT" compare --rows
check "scenarios without a file" says 2 "a file of scenarios is missing" scenarios
check "scenarios with a file that isn't there" says 2 "no-such.txt can't be read" scenarios no-such.txt
check "scenarios names a line that is no command" says 2 "line 2: " scenarios "$(file wrong.txt 'set\nno command\n')"
check "compare makes so many calls" says 1 "5 calls the same, 0 different" compare --calls=5
check "wtpdump shows a frame" says 0 "UI, N(U) 3, a datagram of 4 octets, ports 3 to 5" wtpdump --rds --sent-by ue 4B350E000502
check "wtpdump with a side that there isn't" says 2 '--sent-by must be ue, network or a UDP port, not "x"' wtpdump --rds --sent-by x 40
check "scenarios plays frames" says 0 "u 4B35AA: ok 0=3" scenarios --rds tests/rds_cases/commands.txt
check "bench lists the cases of frames" says 0 "tell a port" bench --rds --list
check "bench lists its cases" says 0 "receive an Ack:48" bench --list
check "bench makes one call" $runner "$programs/bench" --one request:1 twin 8
check "bench without a number of times" says 2 "TIMES is missing" bench --one request:1 twin
check "bench with a wrong number of times" says 2 "TIMES must be a number" bench --one request:1 twin x
check "bench with a case that isn't there" says 1 "bench: " bench --one nothing twin 8
check "browse without its text" says 2 "TEXT is missing" browse 127.0.0.1:9201 http://127.0.0.1:8080
check "browse with a wrong address" says 1 "0 passed, 1 failed" browse nowhere http://127.0.0.1:8080 text
for program in gateway reader; do
    check "$program says its statuses" says 0 "Exit status:" "$program" --help
    check "$program without a file" says 2 "is missing" "$program"
    check "$program with half a switch" says 2 "--seed needs a value" "$program" --seed
    check "$program with a wrong number" says 2 "--loss must be a number from 0 to 100" "$program" --loss 101 "$one"
    check "$program with two files" says 2 "one argument too many" "$program" a b
    check "$program with a missing file" says 2 "no-such.csv: can't be read" "$program" no-such.csv
    check "$program with a directory" says 2 "can't be read" "$program" "$work"
    check "$program with an empty file" says 2 "line 1: the header must be" "$program" "$(file empty.csv '')"
    check "$program with other octets" says 2 "line 1: that isn't plain UTF-8 text" "$program" "$(file octets.csv '\377\376')"
done
check "a wrong address" says 2 "isn't an address" reader --gateway nowhere "$one"
check "an address that can't be listened on" says 2 "192.0.2.1:9 can't be used" gateway --listen 192.0.2.1:9 host/examples/results.csv

echo "files"
header='sampler,site\n'
check "a line with a cell too few" says 2 "line 3: 2 cells are expected" reader "$(file s1.csv "${header}1,a\n2\n")"
check "a sampler twice" says 2 "line 3: the sampler 1 is there already" reader "$(file s2.csv "${header}1,a\n1,b\n")"
check "a number that is too long" says 2 "line 2: the sampler number is too long" reader "$(file s3.csv "${header}1234567890123,a\n")"
check "no sampler" says 2 "there is no sampler in it" reader "$(file s4.csv "$header")"
header='sampler,answer,detail\n'
check "a value that is none" says 2 "line 2: \"0\" isn't a value" gateway "$(file r1.csv "${header}1,value,0\n")"
check "a reason that is none" says 2 "line 2: the reason \"256\"" gateway "$(file r2.csv "${header}1,abort,256\n")"
check "an answer that is none" says 2 "line 2: the answer \"zero\"" gateway "$(file r3.csv "${header}1,zero,\n")"

echo "a gateway and its readers"
gateway first
check "a value, and status 0" says 0 "VALUE         NO2 41.2 ug/m3" reader --gateway "$address" --interval 100 "$one"
check "its cost: an Invoke and a TIDok" says 0 "Quay      19  VALUE         NO2 41.2 ug/m3" reader --gateway "$address" --retries 1 --interval 2000 "$one"
check "an abort, and status 1" says 1 "ABORT         by the user: the laboratory doesn't know" reader --gateway "$address" \
    --interval 100 "$(file other.csv 'sampler,site\n9999,Quay\n')"
# exported: the file has what docs/OUTCOMES.md shows, and as python reads it a value for VALUE alone; nothing else is left there. How
# often a request was repeated is the machine's affair, so that only the octets of NO ANSWER, nine Invokes of 16, are compared.
exported() {
    sed -n '/^```csv$/,/^```$/{/^```/!p}' docs/OUTCOMES.md | sed '/NO ANSWER/!s/,[0-9]*$//' >"$work/shown.csv"
    says 1 "1 of 10 samplers: NO ANSWER" reader --gateway "$address" --csv "$work/csv/out.csv" host/examples/samplers.csv &&
        sed '/NO ANSWER/!s/,[0-9]*$//' "$work/csv/out.csv" >"$work/out.csv" && [ "$(ls "$work/csv")" = out.csv ] &&
        [ -s "$work/shown.csv" ] && ! grep -vxFf "$work/out.csv" "$work/shown.csv" &&
        python3 -c 'import csv, sys
columns = "sampler site outcome value detail octets".split()
rows = list(csv.DictReader(open(sys.argv[1], newline=""), strict=True))
outcomes = sorted({row["outcome"] for row in rows})
assert len(rows) == 10 and outcomes == ["ABORT", "EMPTY RESULT", "NO ANSWER", "VALUE"], outcomes
for row in rows:
    is_value = row["outcome"] == "VALUE"
    assert list(row) == columns and bool(row["value"]) == is_value and bool(row["detail"]) != is_value, row
    assert 16 <= int(row["octets"]) <= 144, row' "$work/csv/out.csv"
}
mkdir "$work/csv"
check "the outcomes in a file" exported
check "a file that can't be written" says 2 "no/out.csv: can't be written" reader --gateway "$address" --csv no/out.csv "$one"
check "a file that is a directory" says 2 "csv: isn't the name of a plain file" reader --gateway "$address" --csv "$work/csv" "$one"
check "the file of the samplers" says 2 "one.csv: is the file of the samplers" reader --gateway "$address" --csv "$work/csv/../one.csv" "$one"
check "the port is in use" says 2 "$address can't be used" gateway --listen "$address" host/examples/results.csv
check "an output that nobody reads" bash -c "$runner '$programs/reader' --gateway '$address' --interval 100 '$one' 2>'$work/pipe' | true
    ! grep panicked '$work/pipe'"

# datagram OCTETS: sends them to the gateway, as printf has them.
datagram() {
    printf "$1" >"$work/datagram"
    python3 -c 'import socket, sys
host, port = sys.argv[1].rsplit(":", 1)
socket.socket(socket.AF_INET, socket.SOCK_DGRAM).sendto(open(sys.argv[2], "rb").read(), (host, int(port)))' "$address" "$work/datagram"
}

echo "hostile datagrams"
for octets in '' '\000' '\000\000' '\016\000\005' '\377' "$(head -c 1501 /dev/zero | tr '\0' 'x')" "$(head -c 9000 /dev/zero | tr '\0' 'x')"; do
    datagram "$octets"
done
for length in 0 1 2 1501 9000; do
    check "a datagram of $length octets" waits_for "a datagram of $length octets was dropped" "$work/first.log"
done
check "a malformed PDU" waits_for "a PDU of 3 octets is malformed" "$work/first.log"
check "the gateway still answers" says 0 "VALUE" reader --gateway "$address" --interval 100 "$one"
stop "$process"
check "the gateway's summary" waits_for "results confirmed" "$work/first.log"
check "no panic" bash -c "! grep panicked '$work/first.log'"
check "nobody is there" says 1 "NO ANSWER     none came" reader --gateway "$address" --interval 20 "$one"
check "which costs nine Invokes" says 1 "  144 octets were sent for them" reader --gateway "$address" --interval 20 "$one"

# vanished: the file's directory is removed while the reader waits; the outcomes are told all the same.
vanished() {
    for _ in $(seq 100); do
        rm "$work/csv/"*.part && rm -r "$work/csv" && break || sleep 0.1
    done 2>/dev/null &
    says 2 "csv/out.csv: can't be written" reader --gateway "$address" --csv "$work/csv/out.csv" --interval 100 "$one" &&
        grep -q "NO ANSWER     none came" "$work/said"
}
check "a file that can't be written any more" vanished

echo "a reader that restarts"
from="$(python3 -c 'import socket
own = socket.socket(socket.AF_INET, socket.SOCK_DGRAM)
own.bind(("127.0.0.1", 0))
print("127.0.0.1:%d" % own.getsockname()[1])')"
three="$(file three.csv 'sampler,site\n0041,Quay\n0042,Quay\n0049,Quay\n')"
# uploads FIRST-TID: three samplers, one after the other, from the same address each time.
uploads() {
    says 0 "3 of 3 samplers: VALUE" reader --gateway "$address" --from "$from" --first-tid "$1" --records 1 --interval 100 --retries 3 "$three"
}
gateway restarts --quiet
check "three uploads" uploads 20000
check "three more after a restart with lower TIDs" uploads 5
stop "$process"
check "each start was verified once, and no other upload" waits_for "gateway: 2 verifications begun, 6 results confirmed" "$work/restarts.log"
check "an own address that isn't one" says 2 "isn't an address" reader --from nowhere "$one"

echo "half-open transactions"
# filled NAME PATIENCE: a gateway of four records, each taken by an Invoke whose sender never has its TID verified.
filled() {
    gateway "$1" --quiet --records 4 --patience "$2"
    for tid in 1 2 3 4; do
        datagram "\\016\\000\\00$tid\\002"
    done
}
filled full 60000
check "a gateway that is full has no answer" says 1 "NO ANSWER     none came" reader --gateway "$address" --interval 20 "$one"
stop "$process"
check "its records are all taken" waits_for "gateway: 4 verifications begun, 0 results confirmed" "$work/full.log"
filled freed 600
check "one whose waiting limit ends comes free by itself" says 0 "VALUE         NO2 41.2 ug/m3" reader --gateway "$address" --interval 200 "$one"
stop "$process"
check "and verifies once more" waits_for "gateway: 5 verifications begun, 1 results confirmed" "$work/freed.log"

. host/tests/states.sh

echo "frames of the Reliable Data Service"
gateway frames --rds --loss 10
check "a value on a bad line" says 0 "VALUE         NO2 41.2 ug/m3" reader --rds --gateway "$address" --interval 100 --loss 20 --duplicate 20 "$one"
check "the port was reserved" waits_for "Reserve of our port 5 with its port 3 was answered: Success" "$work/frames.log"
check "and released" waits_for "Release of our port 5 with its port 3 was answered: Success" "$work/frames.log"
check "a reader without frames has no answer" says 1 "NO ANSWER     none came" reader --gateway "$address" --interval 20 "$one"
stop "$process"
check "nobody is there" says 1 "NO ANSWER     no port is reserved at the gateway" reader --rds --gateway "$address" --interval 20 "$one"
# An Invoke, each time in a frame that isn't sound, and last in a sound one between ports that aren't reserved.
gateway malformed --rds
for octets in '\310\065\016\000\005\002' '\110' '\000\002\016\000\005\002' '\140\003\016\000\005\002' '\110\065\016\000\005\002'; do
    datagram "$octets"
done
check "a frame that isn't for us is dropped" waits_for "a frame of 6 octets was dropped: its ports aren't reserved with each other" "$work/malformed.log"
stop "$process"
check "no Invoke was shown" grep -q "gateway: 0 Invokes shown" "$work/malformed.log"
check "nothing was handed on" grep -q "frames: 0 datagrams handed on to WTP, 4 malformed and dropped, 1 not for us" "$work/malformed.log"
check "nothing was sent" grep -q "gateway: 0 datagrams sent" "$work/malformed.log"

echo "signals"
# interrupted SIGNAL ARGUMENTS...: a reader that waits for an answer is stopped.
interrupted() {
    local status=0
    rm -f "$work/$1"
    $runner "$programs/reader" --gateway "$address" --interval 5000 --csv "$work/$1.csv" "${@:2}" host/examples/samplers.csv >"$work/reader" 2>"$work/$1" &
    local reader=$!
    started+=("$reader")
    waits_for "[1-9] of 10 samplers finished" "$work/$1"
    kill -s "$1" "$reader"
    wait "$reader" || status=$?
    [ "$status" = 1 ] && grep -q "VALUE         NO2 41.2" "$work/reader" && grep -q "NO ANSWER     interrupted" "$work/reader" &&
        grep -q "10 of 10 samplers have an outcome" "$work/reader" &&
        [ "$(grep -c "^00[45][0-9],.*,NO ANSWER,,interrupted" "$work/$1.csv")" = "$(grep -c "NO ANSWER     interrupted" "$work/reader")" ]
}
gateway second --quiet --interval 5000
check "Ctrl-C at the reader" interrupted INT
check "SIGTERM at the reader" interrupted TERM
# ended SIGNAL: the gateway prints its summary and ends with 0.
ended() {
    local status=0
    kill -s "$1" "$process"
    wait "$process" || status=$?
    [ "$status" = 0 ] && grep -q "results confirmed" "$work/$2.log"
}
check "Ctrl-C at the gateway" ended INT second
check "--quiet" [ "$(wc -l <"$work/second.log")" = 4 ]
gateway third
check "SIGTERM at the gateway" ended TERM third
gateway ports --rds --interval 5000
check "Ctrl-C at a reader with a port" interrupted INT --rds
check "which releases it" waits_for "Release of our port 5 with its port 3 was answered: Success" "$work/ports.log"
check "SIGTERM at its gateway" ended TERM ports
gateway idle
sleep 1
check "a gateway that nobody asks sleeps until its signal" ended TERM idle
check "and wakes up for nothing else" grep -q "; woke up once$" "$work/idle.log"

finish
