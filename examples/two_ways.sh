#!/usr/bin/env bash
# Builds two_ways.c with gcc and the proved static library (tools/library.sh), as a training tool would, and tries it. Under valgrind too, where
# that is there. The last line is 'N passed, M failed'.
set -u
cd "$(dirname "$0")/.." || exit 1
. tools/try.sh

library=crates/desk/out/libdesk.a
[ -f "$library" ] || { echo "two_ways.sh: there is no $library: tools/library.sh makes it"; echo "0 passed, 1 failed"; exit 1; }
program=$room/two_ways
try "it builds" 0 "" "" gcc -std=c11 -O2 -Wall -Wextra -Werror -Iinclude examples/two_ways.c "$library" -o "$program"

# Block 1, at 34, with its target, at 43, made 1.
{ head -c 43 examples/trainer.form; printf '\001'; tail -c +45 examples/trainer.form; } >"$room/refused.form"
zeros=$(
    printf '%-10s %25s %25s\n' "" "full walk" sweep iterations 0 0
    printf '%-10s %25d\n' walked 0
    printf '%-10s %25s %25d\n' kept "" 0
    printf '%-10s %12s %12s %12s %12s\n' "" dearest cheapest dearest cheapest iteration 0 0 0 0 "whole loop" 0 0 0 0
)
both=$(cat examples/two_ways.out)
over=$(cat examples/two_ways_over.out)

try "the trainer's form" 0 "$both"$'\n' "" "$program" examples/trainer.form
try "a budget that is just met" 0 "$both"$'\n' "" "$program" examples/trainer.form 13
try "a budget of one less" 0 "$over"$'\n' "" "$program" examples/trainer.form 12
try "a refused form" 0 "full walk: refused 16 at 34"$'\n'"sweep: refused 16 at 34"$'\n'"$zeros"$'\n' "" "$program" "$room/refused.form"
try "an empty form" 0 "full walk: refused 17 at 0"$'\n'"sweep: refused 17 at 0"$'\n'"$zeros"$'\n' "" "$program" /dev/null
try "no form" 2 "" "usage: " "$program"
try "too many words" 2 "" "usage: " "$program" examples/trainer.form 13 13
try "no such file" 1 "" "No such file or directory" "$program" "$room/none.form"
try "a folder" 1 "" "cannot be read" "$program" examples
for budget in "" x 13x " 13" -1 -18446744073709551615 4294967296 99999999999999999999; do
    try "the budget '$budget'" 2 "" "the budget is a number up to 4294967295" "$program" examples/trainer.form "$budget"
done

if ! valgrind -q --error-exitcode=1 true >/dev/null 2>&1; then
    echo "valgrind is not there: not tried under it"
else
    for form in examples/trainer.form examples/figure1.form "$room/refused.form" /dev/null; do
        "$program" "$form" >"$room/plain"
        try "$form under valgrind" 0 "$(cat "$room/plain")"$'\n' "" valgrind -q --leak-check=full --error-exitcode=1 "$program" "$form"
    done
fi

tried
