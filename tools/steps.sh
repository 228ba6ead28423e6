# shellcheck shell=bash
# For a script of steps that are counted: source it, call `step` or `needs` for each, and read passed and failed at the end.
passed=0
failed=0
# Where a step's command may say how far it is, past what is counted.
exec 3>&1

# Counts a step that says 'N passed, M failed' on its last line: step NAME COMMAND WORDS.. A step that says nothing of the kind, that says
# '0 passed, 0 failed', or that ends badly with nothing failed, counts as a failure. It ends as the command, or with 1 where only what is counted failed.
step() {
    local name=$1 log status last
    shift
    log=$(mktemp)
    echo "== $name"
    "$@" >"$log" 2>&1
    status=$?
    last=$(tail -n 1 "$log")
    if [[ $last =~ ^([0-9]+)\ passed,\ ([0-9]+)\ failed$ ]]; then
        passed=$((passed + BASH_REMATCH[1]))
        failed=$((failed + BASH_REMATCH[2]))
        if [ "$((BASH_REMATCH[1] + BASH_REMATCH[2]))" -eq 0 ]; then
            echo "FAILED: $name: nothing was tried"
            status=1
        fi
        if [ "$status" -ne 0 ] && [ "${BASH_REMATCH[2]}" -eq 0 ]; then failed=$((failed + 1)); fi
        if [ "${BASH_REMATCH[2]}" -ne 0 ] && [ "$status" -eq 0 ]; then status=1; fi
    else
        failed=$((failed + 1))
        status=1
    fi
    if [ "$status" -eq 0 ]; then tail -n 12 "$log" | cut -c 1-400; else tail -n 120 "$log" | cut -c 1-600; fi
    rm -f "$log"
    return "$status"
}

# Counts a step that only has an exit status.
needs() {
    local name=$1
    shift
    step "$name" bash -c '"$@" && echo "1 passed, 0 failed"' needs "$@"
}

# For a step: rt ci, shown as it goes. It fails nothing for a must-fail edit that cannot be applied or read, and counts those as bad in its line 'rt: ok'.
# Here each of them is a failure, and so is a run that ends well without that line: no_bad_edits COMMAND WORDS..
no_bad_edits() {
    local log status ok last bad=0
    log=$(mktemp)
    "$@" 2>&1 | tee "$log" >&3
    status=${PIPESTATUS[0]}
    ok=$(grep '^rt: ok;' "$log" | tail -n 1)
    last=$(tail -n 1 "$log")
    rm -f "$log"
    if [[ $ok =~ must-fail\ edits:\ [^\;]*,\ ([0-9]+)\ bad\; ]]; then bad=${BASH_REMATCH[1]}; fi
    echo "${ok:-there is no line 'rt: ok'}"
    if [ -z "$ok" ] && [ "$status" -eq 0 ]; then status=1; fi
    if [ "$bad" -ne 0 ] && [[ $last =~ ^([0-9]+)\ passed,\ ([0-9]+)\ failed$ ]]; then
        echo "FAILED: bad must-fail edits: $bad"
        last="${BASH_REMATCH[1]} passed, $((BASH_REMATCH[2] + bad)) failed"
        if [ "$status" -eq 0 ]; then status=1; fi
    fi
    echo "$last"
    return "$status"
}
