#!/usr/bin/env bash
# Builds the proved library and runs the example programs beside this file over it.
set -euo pipefail
cd "$(dirname "$0")/../.."
. scripts/library.sh

built wtp
mkdir -p target/examples
for name in read_pdus transaction; do
    program="target/examples/$name"
    "$compiler" -std=c99 -Wall -Wextra -pedantic -O2 -static -no-pie -Iinclude "examples/c/$name.c" target/staticlib/libwtp.a -o "$program"
    $runner "$program"
done
