#!/usr/bin/env bash
# Builds the proved libraries and bench over them, counts the instructions of each call and prints bench's table.
set -euo pipefail
usage="usage: host/bench/run.sh [--rds] [--quick]

Prints ns and instructions of a call of the proved library beside host/twin, in the same run and on the same inputs, as a
table in Markdown with the ratios, and first where and how they were made.

  --rds    the calls of the Reliable Data Service beside host/rds_twin, instead of those of WTP beside host/twin
  --quick  fewer and shorter rounds of the clock, and fewer calls that are counted
  --help   prints this

Instructions are counted by valgrind, or, on a machine that is not x86-64, by qemu-x86_64 with one instruction a block. The
count of a call is exact: TIMES more calls, divided by TIMES, less an empty call from the same table, counted in the same way. That of
host/rds_twin is an average, since it allocates."

quick=""
rds=""
times=20
twins=a_time
for argument; do
    case "$argument" in
    --rds) rds=--rds twins=about_a_time ;;
    --quick) quick=--quick times=10 ;;
    --help) echo "$usage" && exit 0 ;;
    *) echo "$usage" >&2 && exit 2 ;;
    esac
done
cd "$(dirname "$0")/../.."
. host/tools.sh
. host/bench/count.sh

build --package bench
bench="$programs/bench"
counts="$CARGO_TARGET_DIR/bench.counts"

$runner "$bench" $rds --list >"$counts.cases"
all="$(wc -l <"$counts.cases")"
done=0
while read -r name; do
    done=$((done + 1))
    printf '\rcounting: %d of %d cases' "$done" "$all" >&2
    nothing="$(a_time "$times" "$bench" --one "$name" nothing)"
    library="$(a_time "$times" "$bench" --one "$name" library)"
    twin="$("$twins" "$times" "$bench" --one "$name" twin)"
    printf '%s\t%d\t%d\n' "$name" "$((library - nothing))" "$((twin - nothing))"
done <"$counts.cases" >"$counts"
echo >&2

about
"${RUSTC:-rustc}" --version
echo
$runner "$bench" $rds $quick --instructions "$counts"
