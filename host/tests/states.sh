# State files: gateways and readers that are killed and go on, files that are damaged, and the program salvage. Sourced by programs.sh, in
# whose words it speaks.
echo "gateways and readers that are killed"
# killed PROCESS: ends it as a power cut does, and waits until it is gone.
killed() {
    kill -s KILL "$1"
    wait "$1" 2>/dev/null || true
}
# octets FILE COMMAND...: changes a file by a line of python, in which it is `o`.
octets() {
    python3 -c 'import sys
o = bytearray(open(sys.argv[1], "rb").read())
exec(sys.argv[2])
open(sys.argv[1], "wb").write(o)' "$1" "$2"
}
state="$work/gateway.state"
# A reader of its own: an Invoke that is verified, up to the Result; after the kill the Result comes again, and its Ack ends it.
gateway kept --state "$state" --interval 1000
python3 host/tests/reader.py "$address" "$work/restarted" >"$work/own.log" &
own=$!
started+=("$own")
check "a reader has its Result" waits_for "answered" "$work/own.log"
killed "$process"
# resumes NAME: the gateway again, at the address that its state has.
resumes() {
    local log="$work/$1.log"
    $runner "$programs/gateway" --state "$state" host/examples/results.csv >"$log" 2>&1 &
    process=$!
    started+=("$process")
    waits_for "listening on $address " "$log"
}
check "a killed gateway comes back at its address" resumes resumed
touch "$work/restarted"
check "with the transaction that it had" waits_for "goes on from $state: live transactions 1, peers 1" "$work/resumed.log"
check "whose Result is sent again and confirmed" waits_for "peer 0, TID 5: the result was confirmed" "$work/resumed.log"
check "its reader had all that it waited for" wait "$own"
killed "$process"

many="$(file many.csv "sampler,site\n$(for number in $(seq 20 43); do printf '%s,Quay\\n' "$number"; done)")"
printf 'sampler,answer,detail\n' >"$work/many-results.csv"
for number in $(seq 20 43); do
    case $((number % 6)) in
    0) echo "$number,empty," ;;
    1) echo "$number,damaged," ;;
    *) echo "$number,value,NO2 $number.5 ug/m3" ;;
    esac
done >>"$work/many-results.csv"
# outcomes FILE: each sampler has what the laboratory's file says, and a cost, whoever was killed: one to nine Invokes of 14.
outcomes() {
    python3 -c 'import csv, sys
book = {row["sampler"]: row for row in csv.DictReader(open(sys.argv[1]))}
kinds = {"value": "VALUE", "empty": "EMPTY RESULT", "damaged": "ABORT"}
rows = list(csv.DictReader(open(sys.argv[2], newline=""), strict=True))
assert len(rows) == len(book) == 24
for row in rows:
    entry = book[row["sampler"]]
    assert row["outcome"] == kinds[entry["answer"]] and row["value"] == (entry["detail"] or ""), row
    assert 14 <= int(row["octets"]) <= 126, row' "$work/many-results.csv" "$1"
}
# again_and_again: a gateway that is killed five times while a reader asks it over a bad line.
again_and_again() {
    local status=0 times=0
    rm -f "$state"
    $runner "$programs/gateway" --listen 127.0.0.1:0 --state "$state" --interval 200 "$work/many-results.csv" >"$work/times0.log" 2>&1 &
    process=$!
    started+=("$process")
    waits_for "listening on" "$work/times0.log"
    address="$(sed -n '1s/^gateway: listening on \([^ ]*\) .*/\1/p' "$work/times0.log")"
    $runner "$programs/reader" --gateway "$address" --records 8 --interval 400 --loss 30 --delay 100 --patience 60000 --csv "$work/many-out.csv" "$many" >"$work/many.log" 2>&1 &
    local reader=$!
    started+=("$reader")
    waits_for "sampler [0-9]*: answered" "$work/times0.log"
    while [ "$times" -lt 5 ]; do
        sleep 0.7
        killed "$process"
        times=$((times + 1))
        $runner "$programs/gateway" --state "$state" --interval 200 "$work/many-results.csv" >"$work/times$times.log" 2>&1 &
        process=$!
        started+=("$process")
        waits_for "listening on $address " "$work/times$times.log"
    done
    wait "$reader" || status=$?
    [ "$status" = 1 ] && outcomes "$work/many-out.csv" && grep -qE "live transactions [1-9]" "$work"/times[1-5].log && ! grep panicked "$work"/times*.log "$work/many.log"
}
check "one that is killed again and again, and all outcomes are right" again_and_again
stop "$process"

# reader_again: a reader that is killed twice, and goes on; its gateway is shown each Invoke once.
reader_again() {
    local status=0 times address
    $runner "$programs/gateway" --listen 127.0.0.1:0 --quiet --interval 200 "$work/many-results.csv" >"$work/shown.log" 2>&1 &
    process=$!
    started+=("$process")
    waits_for "listening on" "$work/shown.log"
    address="$(sed -n '1s/^gateway: listening on \([^ ]*\) .*/\1/p' "$work/shown.log")"
    for times in 1 2; do
        $runner "$programs/reader" --state "$work/reader.state" --gateway "$address" --records 6 --interval 300 --delay 200 --patience 60000 "$many" >"$work/cut$times.log" 2>&1 &
        local reader=$!
        started+=("$reader")
        waits_for "[1-9][0-9]* of 24 samplers finished" "$work/cut$times.log"
        sleep 0.5
        killed "$reader"
    done
    says 2 "reader.state: is of a round that isn't over, with other samplers" reader --state "$work/reader.state" "$one" || return 1
    says 1 "24 of 24 samplers have an outcome" reader --state "$work/reader.state" --csv "$work/cut-out.csv" --patience 60000 "$many" || return 1
    outcomes "$work/cut-out.csv" && grep -q "goes on from .*: live transactions [1-6], peers 1" "$work/said" && stop "$process" && grep -q "gateway: 24 Invokes shown" "$work/shown.log"
}
check "a reader that is killed goes on, and no Invoke is shown twice" reader_again

echo "damaged state files"
# unused TEXT PROGRAM ARGUMENTS...: the file is named, the program doesn't start, and the file stays as it was.
unused() {
    cp "$state" "$work/before"
    says 2 "$@" && cmp -s "$state" "$work/before"
}
cp "$state" "$work/whole.state"
# The record at place 0 is overwritten, and the one at place 1 is free but for its last spare octet.
octets "$state" 'o[640:816] = bytes([255]) * 176; o[816:992] = bytes(176); o[816 + 47] = 1'
cp "$state" "$work/damaged.state"
check "salvage says what it would change" says 1 "2 places would be zeroed; --write does it" salvage "$state"
check "and changes nothing" cmp -s "$state" "$work/damaged.state"
resumes salvaged
check "a gateway frees what is damaged" waits_for "gateway: $state: place 0 was freed: a field was out of range \\(reason 1\\)" "$work/salvaged.log"
check "with a line for each place" waits_for "gateway: $state: place 1 was freed: it was free and not zero \\(reason 2\\)" "$work/salvaged.log"
check "and answers" says 0 "VALUE         NO2 41.2 ug/m3" reader --gateway "$address" --interval 200 "$one"
killed "$process"
check "its file is well formed" says 0 "well formed: nothing is to be changed" salvage "$state"
cp "$work/damaged.state" "$state"
check "salvage --write" says 0 "2 places were zeroed; the table is well formed" salvage --write "$state"
check "leaves nothing beside the file" [ ! -e "$state.part" ]
check "and changes the two records alone" python3 -c 'import sys
old, new = (open(file, "rb").read() for file in sys.argv[1:])
assert len(old) == len(new) and not any(new[640:992]) and old[:640] + old[992:] == new[:640] + new[992:]' "$work/damaged.state" "$state"
check "the state of a reader" unused "reader.state: is the state of a reader, not of a gateway" gateway --state "$work/reader.state" host/examples/results.csv
check "a state with --rds" unused "--state can't be used with --rds" gateway --rds --state "$state" host/examples/results.csv
check "a state that can't be written" says 2 "no/such.state: can't be written" gateway --listen 127.0.0.1:0 --state no/such.state host/examples/results.csv
check "a state that is a directory" unused "isn't the name of a plain file" gateway --state "$work" host/examples/results.csv
for program in gateway salvage; do
    arguments=(--state "$state" host/examples/results.csv)
    [ "$program" = gateway ] || arguments=(--write "$state")
    octets "$state" 'o[8] = 2'
    check "$program: another version" unused "is a state file of version 2; this program reads version 1" "$program" "${arguments[@]}"
    octets "$state" 'o[8] = 1; del o[5000:]'
    check "$program: a file that is cut short" unused "is cut short: it has 5000 octets" "$program" "${arguments[@]}"
    cp "$work/whole.state" "$state"
    octets "$state" 'o[16 + 10] = 9; o[16 + 624] = 255'
    check "$program: a header out of range" unused "can't be salvaged: a field of the table outside its records is out of range (number 15)" "$program" "${arguments[@]}"
    octets "$state" 'o[:] = bytes(700)'
    check "$program: another file" unused "gateway.state: $([ "$program" = gateway ] && echo "isn't a state file" || echo "has 700 octets, and a table")" "$program" "${arguments[@]}"
    cp "$work/whole.state" "$state"
done
# A bare table, as a caller in C keeps it.
octets "$state" 'o[:] = o[16:16 + 624 + 48 * 176]; o[624:800] = bytes([255]) * 176'
check "salvage of a table alone" says 1 "place 0 (state 255, peer 255, TID 65535): a field was out of range (reason 1)" salvage "$state"
check "which is written" says 0 "1 places were zeroed" salvage --write "$state"
check "once for all" says 0 "well formed" salvage "$state"
check "salvage without a file" says 2 "FILE is missing" salvage
check "salvage of a file that isn't there" says 2 "no-such.table: isn't there" salvage no-such.table
check "salvage of a directory" says 2 "isn't the name of a plain file" salvage "$work"
