# How long each part of the gate takes. Sourced at the repository's root; `proved` is then the file that has what `rt ci` said.
proved="$(mktemp)"
times="$(mktemp)"
trap 'rm -f "$proved" "$times"' EXIT

# begins PART: it begins now, if it hasn't begun yet; the part before it ends.
begins() {
    grep -q " $1\$" "$times" || echo "$SECONDS $1" >>"$times"
}

# by_part: hands on what `rt ci` says, and tells its programs from its proofs and edits, which it does side by side and reports before them.
by_part() {
    local line
    while IFS= read -r line; do
        printf '%s\n' "$line"
        printf '%s\n' "$line" >>"$proved"
        case $line in "rt: must-fail "*) begins programs ;; esac
    done
}

# none_bad: fails where `rt ci` passed although an edit can't be applied, compiled or read.
none_bad() {
    if ! grep '^rt: ok;' "$proved" | grep -qv ', [1-9][0-9]* bad\b'; then
        echo "must-fail edits are bad: look for BAD EDIT above"
        return 1
    fi
}

# tell_parts: a line a part, and what of it was done in this run.
tell_parts() {
    awk 'NR > 1 { printf "%-10s %3d min %02d s\n", part, ($1 - from) / 60, ($1 - from) % 60 }
        { from = $1; $1 = ""; part = substr($0, 2) }
        END { printf "%-10s %3d min %02d s\n", "in all", from / 60, from % 60 }' "$times"
    grep '^rt: ok;' "$proved"
}
