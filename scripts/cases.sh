# Counts cases for a script whose last line is 'N passed, M failed'. Sourced at the repository's root.
passed=0
failed=0

# check NAME COMMAND...: one case, good where the command says yes.
check() {
    if "${@:2}"; then
        passed=$((passed + 1))
        echo "ok: $1"
    else
        failed=$((failed + 1))
        echo "FAILED: $1"
    fi
}

# count_from FILE: takes over the cases that a program counted in the last line of its output.
count_from() {
    if [[ "$(tail -n 1 "$1")" =~ ^([0-9]+)\ passed,\ ([0-9]+)\ failed$ ]]; then
        passed=$((passed + BASH_REMATCH[1]))
        failed=$((failed + BASH_REMATCH[2]))
    else
        check "$1 ends in a count" false
    fi
}

# finish: the last line, and the exit status.
finish() {
    echo "$passed passed, $failed failed"
    [ "$failed" -eq 0 ]
}
