# shellcheck shell=bash
# For scripts that try a command: source it, call `try` for each case and `tried` at the end.
passed=0
failed=0
room=$(mktemp -d) || exit 1
trap 'rm -rf "$room"' EXIT

# try NAME STATUS OUTPUT SAID WORD..: the command's exit status, all of its standard output, and a part of its standard error (empty: nothing
# was said).
try() {
    local name=$1 status=$2 output=$3 part=$4 ended
    shift 4
    "$@" >"$room/out" 2>"$room/said" </dev/null
    ended=$?
    printf '%s' "$output" >"$room/wanted"
    if [ "$ended" -eq "$status" ] && cmp -s "$room/out" "$room/wanted" &&
        { if [ -n "$part" ]; then grep -qF -- "$part" "$room/said"; else [ ! -s "$room/said" ]; fi; }; then
        passed=$((passed + 1))
    else
        failed=$((failed + 1))
        echo "FAILED: $name: status $ended, wanted $status; it printed:"
        cat "$room/out" "$room/said"
        echo
    fi
}

# The last line, and whether nothing failed.
tried() {
    echo "$passed passed, $failed failed"
    [ "$failed" -eq 0 ]
}
