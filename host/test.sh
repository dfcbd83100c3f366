#!/usr/bin/env bash
# Tests what cases are expected to give, crates.txt, the Rust code over the proved library, the programs from outside, and the samples
# of docs/OUTCOMES.md; the last line counts the cases.
set -euo pipefail
cd "$(dirname "$0")/.."
. host/tools.sh
. scripts/cases.sh

only_there() {
    ! grep -rlw unsafe --include='*.rs' host | grep -vxE 'host/((wtp|rds)/src/ffi|kit/src/interrupt)\.rs'
}
check "unsafe only around the library's calls and around signals" only_there

has python3 || fetch python3
for script in bench_cases codec_cases damage scenarios rds_cases; do
    check "tests/$script.py: what is expected is what document 01 says, as read there" python3 "tests/$script.py" --check
done
check "crates.txt names the crates that are needed" python3 scripts/crates.py --check

library
logs="$CARGO_TARGET_DIR/tests"
mkdir -p "$logs"

# What didn't build, or died before it could count, is a failure too.
status=0
"$cargo" test --manifest-path host/Cargo.toml --offline --workspace --tests --no-fail-fast 2>&1 | tee "$logs/cargo.log" || status=$?
awk -v status="$status" '
    /^test result:/ { passed += $4; failed += $6 }
    END { printf "%d passed, %d failed\n", passed, failed == 0 && status != 0 ? 1 : failed }' "$logs/cargo.log" >"$logs/cargo.count"
count_from "$logs/cargo.count"

for script in programs samples stack; do
    "host/tests/$script.sh" 2>&1 | tee "$logs/$script.log" || true
    count_from "$logs/$script.log"
done
finish
