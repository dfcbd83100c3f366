#!/usr/bin/env bash
# Holds each call to the octets of stack that it may take; the last line counts.
set -euo pipefail
cd "$(dirname "$0")/../.."
exec host/bench/stack.sh --check
