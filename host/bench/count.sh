# Counts instructions of x86-64 programs. Sourced at the repository's root, after scripts/library.sh.
[ -n "$runner" ] || has valgrind || fetch valgrind

# One instruction a block; the emulator's older name for it is -singlestep.
step=-one-insn-per-tb
if [ -n "$runner" ] && ! "$runner" -h | grep -q -e "$step"; then
    step=-singlestep
fi

# Arguments that tell the emulator which addresses to write down; without them it is all.
only=()

# counted PROGRAM ARGUMENT...: how many instructions the whole run takes.
counted() {
    if [ -n "$runner" ]; then
        "$runner" "$step" "${only[@]}" -d exec,nochain -D /dev/stdout "$@" | grep -c '^Trace '
    else
        valgrind --tool=callgrind --callgrind-out-file=/dev/null "$@" 2>&1 >/dev/null | sed -n 's/.*Collected : \([0-9]*\).*/\1/p'
    fi
}

# more TIMES PROGRAM ARGUMENT...: instructions of so many times more, where the number of times is the program's last argument. What
# the program does before and after is in both counts. TIMES and its double have as many digits: reading them takes the same.
more() {
    local times="$1" few many
    shift
    few="$(counted "$@" "$times")" || return 1
    many="$(counted "$@" "$((2 * times))")" || return 1
    echo "$((many - few))"
}

# a_time TIMES PROGRAM ARGUMENT...: instructions of each time. A remainder means that the times differ, and fails. Now and then it
# is the program's start that differs (it reads its memory map), so that it is counted up to three times.
a_time() {
    local all
    for _ in 1 2 3; do
        all="$(more "$@")" || return 1
        if [ "$((all % $1))" -eq 0 ]; then
            echo "$((all / $1))"
            return
        fi
    done
    echo "$*: $1 times more take $all instructions, which isn't the same for each" >&2
    return 1
}

# about_a_time TIMES PROGRAM ARGUMENT...: the same for a program that doesn't take the same each time: the average.
about_a_time() {
    local all
    all="$(more "$@")" || return 1
    echo "$((all / $1))"
}

# about: the machine and how programs are run on it, a line each.
about() {
    echo "Machine: $(uname -m), $(nproc) cores, $(lscpu | sed -n 's/^Model name: *//p' | head -n 1)"
    if [ -n "$runner" ]; then
        echo "Run under $("$runner" --version | head -n 1): ns are the emulator's, and their ratios only indicate."
    else
        echo "Run natively; instructions counted by $(valgrind --version)."
    fi
}
