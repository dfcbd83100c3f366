# What programs over the library need: `compiler` and `runner` for x86-64 code, which elsewhere are a cross compiler and an
# emulator, and the libraries themselves. Sourced at the repository's root.
compiler=cc
runner=""

# has COMMAND...: whether all of them are there.
has() {
    local name
    for name; do command -v "$name" >/dev/null || return 1; done
}

# fetch PACKAGE...: from the distribution, quietly.
fetch() {
    local apt=(apt-get -qq -o Acquire::Retries=3 -o DPkg::Lock::Timeout=300)
    "${apt[@]}" update
    DEBIAN_FRONTEND=noninteractive "${apt[@]}" install -y "$@" >/dev/null
}

if [ "$(uname -m)" != x86_64 ]; then
    compiler=x86_64-linux-gnu-gcc
    runner=qemu-x86_64
    has "$compiler" "$runner" || fetch gcc-x86-64-linux-gnu libc6-dev-amd64-cross qemu-user
fi

# library: both libraries, wtp and rds.
library() {
    built wtp && built rds
}

# built NAME: proves and builds libNAME.a, which the crate NAME_c exports, where it isn't there or a crate is newer, with a line for each
# crate that has to be proved.
built() {
    local archive="target/staticlib/lib$1.a"
    if [ -f "$archive" ] && [ -z "$(find crates.txt crates/*/* -name out -prune -o -newer "$archive" -print -quit)" ]; then
        return
    fi
    mkdir -p target
    if ! (cd "crates/$1_c" && rt lib) 2>&1 | tee target/library.log | sed -u -n '/^rt:/p' >&2; then
        echo "the library $1 isn't built: target/library.log says why" >&2
        return 1
    fi
    handed_out "$1"
}

# archived NAME: builds libNAME.a over the libraries that `rt ci` proved in this checkout just now; only NAME_c itself is proved again. Where
# `rt ci` put back what an earlier check had kept there, it is built as ever.
archived() {
    local status=0
    python3 scripts/archive.py "$1_c" || status=$?
    case $status in
    0) handed_out "$1" ;;
    3) built "$1" ;;
    *) return 1 ;;
    esac
}

# handed_out NAME: puts the archive of NAME_c where programs look for libNAME.a.
handed_out() {
    mkdir -p target/staticlib
    cp "crates/$1_c/out/lib$1_c.a" "target/staticlib/lib$1.a"
}
