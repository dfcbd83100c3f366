#!/usr/bin/env bash
# Compiles the headers as C99 and as C++, and the samples of docs/OUTCOMES.md in C and against the wrapper in Rust, all without
# a warning; the last line counts.
set -euo pipefail
cd "$(dirname "$0")/../.."
. host/tools.sh
. scripts/cases.sh
has c++ || fetch g++

work="$(mktemp -d)"
trap 'rm -rf "$work"' EXIT

# sample LANGUAGE: the text between the fences of that language.
sample() {
    awk -v fence="\`\`\`$1" '$0 == fence { inside = 1; next } /^```/ { inside = 0 } inside' docs/OUTCOMES.md
}

# compiles FILE COMMAND...: whether the command takes the sample, which must not be empty.
compiles() {
    [ -s "$1" ] && "${@:2}" "$1"
}

sample c >"$work/sample.c"
sample rust >"$work/sample.rs"
build --package wtp
strict=(-Wall -Wextra -pedantic -Werror -fsyntax-only -Iinclude)
for header in wtp rds; do
    check "$header.h compiles as C99" compiles "include/$header.h" "$compiler" -std=c99 "${strict[@]}" -x c
    check "$header.h compiles as C++" compiles "include/$header.h" c++ -std=c++98 "${strict[@]}" -x c++
done
check "the sample in C compiles" compiles "$work/sample.c" "$compiler" -std=c99 "${strict[@]}"
check "the sample in Rust compiles" compiles "$work/sample.rs" "${RUSTC:-rustc}" --edition 2021 --crate-type lib --emit metadata \
    --target "$CARGO_BUILD_TARGET" -D warnings --extern "wtp=$programs/libwtp.rlib" --out-dir "$work"
finish
