# shellcheck shell=bash
# What both scripts need before they begin. Sourced at the repository's root.
export LC_ALL=C.UTF-8
. host/tools.sh
. scripts/cases.sh
work=target/interop
mkdir -p "$work"
build --package interop --package wtpdump

# Ends where nothing can be checked.
give_up() {
    echo "FAILED: $1"
    echo "0 passed, 1 failed"
    exit 1
}

# Installs the package, where the command isn't there.
need() {
    has "$1" || fetch "$2" || true
    has "$1" || give_up "$1 isn't there, and the package $2 can't be installed"
}

# Runs a program of the host workspace.
program() {
    $runner "$programs/$1" "${@:2}"
}
