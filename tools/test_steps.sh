#!/usr/bin/env bash
# Tries how the gate counts its steps (tools/steps.sh). The last line is 'N passed, M failed'.
set -u
cd "$(dirname "$0")/.." || exit 1
. tools/try.sh

# counted NAME PASSED FAILED ENDED COMMAND: after one step that runs the command, how much is counted, and whether the step ended well (0) or not (1).
counted() {
    try "$1" 0 "$2 passed, $3 failed, ended $4"$'\n' "" bash -c '
        . tools/steps.sh
        step "a step" bash -c "$1" >/dev/null
        ended=$(($? != 0))
        echo "$passed passed, $failed failed, ended $ended"' counted "$5"
}

counted "all passed" 3 0 0 'echo "3 passed, 0 failed"'
counted "lines before the last" 3 0 0 'echo "0 passed, 7 failed"; echo "3 passed, 0 failed"'
counted "one failed" 2 1 1 'echo "2 passed, 1 failed"; exit 1'
counted "one failed, and it ends well" 2 1 1 'echo "2 passed, 1 failed"'
counted "none failed, and it ends badly" 2 1 1 'echo "2 passed, 0 failed"; exit 1'
counted "nothing was tried" 0 1 1 'echo "0 passed, 0 failed"'
counted "nothing is said" 0 1 1 'true'
counted "something else is said last" 0 1 1 'echo "3 passed, 0 failed"; echo done'
counted "there is no such command" 0 1 1 'exec ./there-is-no-such-command'
try "a step with an exit status alone" 0 $'1 passed, 1 failed\n' "" bash -c '
    . tools/steps.sh
    needs good true >/dev/null
    needs bad false >/dev/null
    echo "$passed passed, $failed failed"'

# told NAME PASSED FAILED ENDED COMMAND: the same after a step that runs the command as rt ci.
told() {
    try "$1" 0 "$2 passed, $3 failed, ended $4"$'\n' "" bash -c '
        . tools/steps.sh
        exec 3>/dev/null
        step "a step" no_bad_edits bash -c "$1" >/dev/null
        ended=$?
        echo "$passed passed, $failed failed, ended $ended"' told "$5"
}

ok="rt: ok; handles allowed: none; must-fail edits: 9 refused"
told "every edit is refused" 12 0 0 "echo '$ok; every proof and must-fail edit was done in this run'; echo '12 passed, 0 failed'"
told "some only by a limit" 12 0 0 "echo '$ok, 2 of them only by a limit; done in this run: 0 of the 3 proofs'; echo '12 passed, 0 failed'"
told "one is bad" 12 1 1 "echo '$ok, 1 bad; every proof and must-fail edit was done in this run'; echo '12 passed, 0 failed'"
told "some are bad, and some only refused by a limit" 12 3 1 "echo '$ok, 2 of them only by a limit, 3 bad; done in this run'; echo '12 passed, 0 failed'"
told "there are no edits" 3 0 0 "echo 'rt: ok; handles allowed: none; every proof and must-fail edit was done in this run'; echo '3 passed, 0 failed'"
told "no line says that all is well" 3 1 1 "echo '3 passed, 0 failed'"
told "rt ci fails" 2 1 1 "echo 'rt: FAILED: form'; echo '2 passed, 1 failed'; exit 1"
told "rt ci judges nothing" 0 1 2 "echo '0 passed, 1 failed'; exit 2"
try "what rt ci says is shown as it goes" 1 $'one\ntwo\n' "" bash -c '
    . tools/steps.sh
    step "a step" no_bad_edits printf "one\ntwo\n" >/dev/null'

tried
