#!/usr/bin/env bash
# Builds the program of stack/ over the proved libraries and prints how much stack each call takes.
set -euo pipefail
usage="usage: host/bench/stack.sh [--check]

Prints the octets of stack that each call of the proved libraries takes, over ordinary and hostile inputs, as a table in Markdown.
A call runs on a stack of its own that was painted before. What counts reaches from the stack pointer just before the call
instruction to the lowest octet that then has another value: the return address counts, arguments on the stack don't.

  --check  says of each call of wtp.h whether it keeps its bound (stack/main.c); the last line counts; exit status 1 where one doesn't
  --help   prints this"

case "$*" in
"" | --check) ;;
--help) echo "$usage" && exit 0 ;;
*) echo "$usage" >&2 && exit 2 ;;
esac
cd "$(dirname "$0")/../.."
. scripts/library.sh

library
mkdir -p target/stack
# Static: a function of libc that is bound at its first call would take its stack from ours.
"$compiler" -std=c11 -Wall -Wextra -pedantic -Werror -O2 -static -no-pie -Iinclude host/bench/stack/*.c host/bench/stack/below.S \
    target/staticlib/libwtp.a target/staticlib/librds.a -o target/stack/stack
exec $runner target/stack/stack "$@"
