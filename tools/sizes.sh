#!/usr/bin/env bash
# The sizes of the crates, counted from the tree, as a table.
#   sizes.sh             a row for each crate: functions, public ones, lines of code, definitions and proofs, must-fail edits
#   sizes.sh --trusted   a row for each trusted file: its lines
#   sizes.sh --write     puts the first table into docs/ROADMAP.md, between its two marks
# Lines are without blank ones, comments included. Definitions are the trusted files of specs/ (docs/PROMISES.md lists them), proofs all other files of specs/
# and of proofs/: lemmas, and of each function its Invariants, Answers or Proof.
set -eu
cd "$(dirname "$0")/.."

trusted=$(tools/trusted.sh <docs/PROMISES.md)
# Lines that are not blank, of the files named on standard input.
lines() { xargs -r -d '\n' cat | grep -c '[^[:space:]]' || true; }
# The files of a crate's folders that are Rattle or its specs: files CRATE FOLDER..
files() {
    local crate=$1 folder
    shift
    for folder; do
        if [ -d "crates/$crate/$folder" ]; then find "crates/$crate/$folder" -name '*.rt' -o -name '*.antt'; fi
    done
}

by_crate() {
    local crate functions public code definitions proofs edits sums=(0 0 0 0 0 0) row i
    echo "| Crate | Functions | Public | Code lines | Definition lines | Proof lines | Must-fail edits |"
    echo "|---|---|---|---|---|---|---|"
    for crate in $(sed 's/#.*//' crates.txt | sed -n 's/^\([a-z_0-9]*\)\( [^:]*\)\?:.*/\1/p'); do
        functions=$(files "$crate" src | xargs -r cat | grep -cE '^ *(pub(\(crate\))? )?(extern "C" )?fn ' || true)
        public=$(files "$crate" src | xargs -r cat | grep -cE '^ *pub (extern "C" )?fn ' || true)
        code=$(files "$crate" src | lines)
        definitions=$(files "$crate" specs | { grep -xF "$trusted" || true; } | lines)
        proofs=$(files "$crate" specs proofs | { grep -vxF "$trusted" || true; } | lines)
        edits=$(find "crates/$crate/must-fail" -name '*.edit' 2>/dev/null | wc -l)
        row=("$functions" "$public" "$code" "$definitions" "$proofs" "$edits")
        for i in "${!row[@]}"; do sums[i]=$((sums[i] + row[i])); done
        echo "| \`$crate\` | ${row[0]} | ${row[1]} | ${row[2]} | ${row[3]} | ${row[4]} | ${row[5]} |"
    done
    echo "| all | ${sums[0]} | ${sums[1]} | ${sums[2]} | ${sums[3]} | ${sums[4]} | ${sums[5]} |"
}

case $#:${1-} in
0:) by_crate ;;
1:--trusted)
    echo "| Trusted file | Lines |"
    echo "|---|---|"
    sum=0
    for file in $trusted; do
        count=$(echo "$file" | lines)
        sum=$((sum + count))
        echo "| \`$file\` | $count |"
    done
    echo "| all | $sum |"
    ;;
1:--write)
    table=$(mktemp)
    page=$(mktemp)
    trap 'rm -f "$table" "$page"' EXIT
    by_crate >"$table"
    grep -qx '<!-- sizes -->' docs/ROADMAP.md && grep -qx '<!-- end of sizes -->' docs/ROADMAP.md ||
        { echo "sizes.sh: docs/ROADMAP.md has not the two marks" >&2; exit 1; }
    awk -v table="$table" '
        $0 == "<!-- end of sizes -->" { within = 0 }
        !within { print }
        $0 == "<!-- sizes -->" { within = 1; print ""; while ((getline line <table) > 0) print line; print "" }' docs/ROADMAP.md >"$page"
    cat "$page" >docs/ROADMAP.md
    ;;
*)
    echo "usage: sizes.sh [--trusted | --write]" >&2
    exit 2
    ;;
esac
