#!/usr/bin/env bash
# host/program.sh NAME ARGUMENT...: builds one of the programs under host/ over the proved library and runs it where it is called from.
set -euo pipefail
if [ $# -eq 0 ]; then
    echo "usage: host/program.sh NAME ARGUMENT...   (NAME: reader, gateway, salvage, wtpdump, compare, scenarios; --help as an argument says more)" >&2
    exit 2
fi
from="$PWD"
cd "$(dirname "$0")/.."
. host/tools.sh
build --package "$1"
program="$programs/$1"
shift
cd "$from"
exec $runner "$program" "$@"
