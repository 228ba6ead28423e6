#!/usr/bin/env bash
# Tries the main command, ./somniaret: what it prints, says and ends with. The last line is 'N passed, M failed'.
set -u
cd "$(dirname "$0")/.." || exit 1
. tools/try.sh

report=$(cat crates/report/stdout)$'\n'
cp examples/trainer.form "$room/a form"
cp examples/trainer.form "$room/-x"
# The trainer's form with some bytes put at a place: with_bytes PLACE BYTES, as printf writes them.
with_bytes() {
    local many
    many=$(printf '%b' "$2" | wc -c)
    head -c "$1" examples/trainer.form
    printf '%b' "$2"
    tail -c +$(($1 + many + 1)) examples/trainer.form
}
with_bytes 43 '\001' >"$room/16.form"   # block 1, at 34, with its target, at 43, made 1
with_bytes 2 '\011' >"$room/12.form"    # the counter with kind 9
with_bytes 4 '\012\0\0\0\0\0\0\0\0\012' >"$room/20.form" # counter 10, 0, =, 10
head -c 19 examples/trainer.form >"$room/10.form"
# The trainer's counter and so many blocks of cost 1, each of which goes to the next: chain BLOCKS. Its route: chain_route BLOCKS.
chain() {
    local next
    head -c 17 examples/trainer.form
    for ((next = 1; next < $1; next++)); do printf '%b' "\\021\\0\\002\\0\\001\\0\\0\\0\\001\\x$(printf %02x "$next")\\0\\0\\0\\0\\0\\0\\0"; done
    printf '%b' '\021\0\002\0\001\0\0\0\0\0\0\0\0\0\0\0\0'
}
chain_route() {
    local block
    for ((block = 0; block < $1 - 1; block++)); do printf ' %dJ' "$block"; done
    printf ' %dE' "$block"
}
chain 16 >"$room/16 blocks.form"
chain 17 >"$room/17 blocks.form"
sixteen=$(printf 'blocks 16\niterations 10\nconflicts 0\nweight 16\nbound 160\nroute%s\nleast 16\nleast route%s\nkept 1\nwalked 16' "$(chain_route 16)" "$(chain_route 16)")
# A path with the usual tools and without rt.
mkdir "$room/bin"
for tool in bash env cat dirname readlink find mktemp; do ln -s "$(command -v "$tool")" "$room/bin/$tool"; done

try "the example" 0 "$report" "" ./somniaret examples/trainer.form
try "a name with a space" 0 "$report" "" ./somniaret "$room/a form"
try "a name that begins with -" 0 "$report" "" bash -c 'here=$PWD && cd "$1" && "$here/somniaret" ./-x' in "$room"
try "from another folder" 0 "$report" "" sh -c 'cd examples && ../somniaret trainer.form'
try "standard input" 0 "$report" "" sh -c './somniaret - <examples/trainer.form'
try "help" 0 "$(./somniaret --help)"$'\n' "" ./somniaret -h
try "a refused form" 0 $'refused 16 at 34\n' "somniaret: refusal 16: a used target not above its block: the record at byte 34" ./somniaret "$room/16.form"
try "an unknown kind" 0 $'refused 12 at 0\n' "somniaret: refusal 12: unknown kind of record: the record at byte 0" ./somniaret "$room/12.form"
try "a form cut short" 0 $'refused 10 at 17\n' "somniaret: refusal 10: " ./somniaret "$room/10.form"
try "no loop count" 0 $'refused 20 at 0\n' "somniaret: refusal 20: no loop count exists" ./somniaret "$room/20.form"
try "an empty file" 0 $'refused 17 at 0\n' "somniaret: refusal 17: no counter or no block at the end: the input has 0 bytes" ./somniaret /dev/null
try "16 blocks" 0 "$sixteen"$'\n' "" ./somniaret "$room/16 blocks.form"
try "17 blocks" 0 $'refused 44 at 1088\n' "1088 entries needed, and the program's table has 1024" ./somniaret "$room/17 blocks.form"
try "no form" 2 "" "usage: ./somniaret FORM" ./somniaret
try "two forms" 2 "" "usage: ./somniaret FORM" ./somniaret examples/trainer.form examples/figure1.form
try "help and a form" 2 "" "usage: ./somniaret FORM" ./somniaret --help examples/trainer.form
for option in --hlep -x --version --; do
    try "the option $option" 2 "" "somniaret: unknown option $option" ./somniaret "$option"
    try "the usage after $option" 2 "" "usage: ./somniaret FORM" ./somniaret "$option"
done
try "an option and a form" 2 "" "usage: ./somniaret FORM" ./somniaret -x examples/trainer.form
try "an empty name" 2 "" "the form's name is empty" ./somniaret ""
try "no such file" 2 "" "there is no such file" ./somniaret "$room/none.form"
try "a folder" 2 "" "is a folder" ./somniaret examples
try "no proof tools" 1 "" "the proof tools are missing" env PATH="$room/bin" ./somniaret examples/trainer.form
if [ -w /dev/full ]; then
    try "no room for the report" 1 "" "cannot be printed" sh -c './somniaret examples/trainer.form >/dev/full'
fi

# The rest in a copy of the command, with an rt that only says what the proof tools would and a report program that prints what it reads.
copy=$room/copy
mkdir -p "$copy/tools" "$copy"/crates/report/{src,specs,proofs} "$room/fake"
cp somniaret "$copy/"
printf '# four crates\nlaws:\nreport: form io\nform: laws # the form\ndesk staticlib: form\n' >"$copy/crates.txt"
printf '#!/bin/sh\nexec "$@"\n' >"$copy/tools/run.sh"
cat >"$room/fake/rt" <<'FAKE'
#!/usr/bin/env bash
# As `rt run` in crates/report: says that each crate of the file `said` is proved, and leaves the report program; where the file `refused` is there it
# says so and fails.
[ "$(basename "$PWD") $*" = "report run" ] || exit 3
while IFS= read -r name; do
    echo "rt: chose --jobs 2 for $name"
    echo "fn $name::call: proved"
    echo "library laws: modules loaded=2 checked=0"
    echo "crate $name: modules loaded=1 checked=2"
    echo "logic=proved functions=1 sum=0"
done <../../said >&2
if [ -e ../../refused ]; then
    echo "rt: report was refused" >&2
    exit 1
fi
mkdir -p out
printf '#!/bin/sh\nexec cat\n' >out/report
chmod +x out/report
echo "refused 17 at 0"
FAKE
chmod +x "$copy/tools/run.sh" "$room/fake/rt"
copied() { PATH=$room/fake:$PATH "$copy/somniaret" "$@"; }

# The words of each refusal are those of the header's table, whose columns start where its head says; those that the report cannot print are not there.
echo "refused 99 at 7" >"$room/said.form"
: >"$copy/said"
try "a copy is built" 0 $'refused 99 at 7\n' "building the report program" copied "$room/said.form"
try "a number without words" 0 $'refused 99 at 7\n' "" copied "$room/said.form"
for number in 10 11 12 13 14 15 16 17 18 19 20 40 43 44; do
    words=$(awk -v number="$number" '/^ *number  when .*place$/ { from = index($0, "when"); to = index($0, "place") }
        from && $1 == number { text = substr($0, from, to - from); sub(/ *$/, "", text); print text; exit }' include/somniaret.h)
    echo "refused $number at 7" >"$room/said.form"
    try "the words of $number" 0 "refused $number at 7"$'\n' "somniaret: refusal $number: ${words:-no words in the header}" copied "$room/said.form"
done
printf 'refused 16 at 7\nand more\n' >"$room/said.form"
try "no refusal alone" 0 $'refused 16 at 7\nand more\n' "" copied "$room/said.form"

# What was built is built again where a source is newer, and only then.
try "a source that is newer" 0 $'refused 16 at 7\nand more\n' "building the report program" sh -c 'touch "$1/crates/report/src" && PATH=$2:$PATH "$1/somniaret" "$3"' newer "$copy" "$room/fake" "$room/said.form"
try "none that is" 0 $'refused 16 at 7\nand more\n' "" copied "$room/said.form"

# Progress: the crates that the report needs, in the order in which rt proves them; on a terminal alone.
echo "refused 20 at 0" >"$room/said.form"
printf 'form\nreport\n' >"$copy/said"
rm -rf "$copy/crates/report/out"
try "building, on no terminal" 0 $'refused 20 at 0\n' "building the report program" copied "$room/said.form"
rm -rf "$copy/crates/report/out"
copied "$room/said.form" >/dev/null 2>"$room/quiet" </dev/null
try "quiet on no terminal" 0 "2" "" sh -c 'printf %d "$(wc -l <"$1")"' lines "$room/quiet"
if command -v script >/dev/null; then
    rm -rf "$copy/crates/report/out"
    PATH=$room/fake:$PATH script -qec "'$copy/somniaret' '$room/said.form'" "$room/typescript" >/dev/null </dev/null
    tr -d '\r' <"$room/typescript" | sed -nE 's/^(somniaret: [0-9].*\()[0-9]+( s\))$/\1N\2/p' >"$room/told"
    told=$'somniaret: 2 of 3 crates proved: form (N s)\nsomniaret: 3 of 3 crates proved: report (N s)\n'
    try "crate by crate on a terminal" 0 "$told" "" cat "$room/told"
else
    echo "script is not there: progress on a terminal is not tried"
fi
rm -rf "$copy/crates/report/out"
: >"$copy/refused"
try "a build that fails" 1 "" "the report program was not built" copied "$room/said.form"
try "why it fails" 1 "" "rt: report was refused" copied "$room/said.form"

tried
