#!/usr/bin/env bash
# Holds the documents to the tree. In README.md and docs/, but for docs/PORT.md and docs/DESIGN-PASS.md, which have old names: every call, definition, theorem, must-fail edit, file
# and crate that is named exists. Of docs/PROMISES.md besides: no table cell is too long; every public call has its promise, and the clause cited stands in the source; its trusted files are those
# that say so of themselves, rest on one another alone and prove nothing. README.md has every crate of crates.txt. The last line is 'N passed, M failed'.
# Names and how they are told apart:
#   crate::call, crate::module::call, crate::Type    in crates/CRATE/src
#   crate.File, crate.File.name                      in crates/CRATE/specs, or else in crates/CRATE/proofs
#   crate/label                                      crates/CRATE/must-fail/LABEL.edit
#   a path that begins with a folder of the tree     a file or folder
#   some_name, SomeName                              a word of the code, its specs or its proofs; a must-fail edit is not named without its crate
#   crate `x`, crates `x`, `y` and `z`               crates of crates.txt
#   check_docs.sh [FOLDER]    the tree; without it this one
set -u
cd "${1:-$(dirname "$0")/..}" || exit 1

most=300 # characters of a table cell
passed=0
failed=0
good() { passed=$((passed + 1)); }
bad() {
    failed=$((failed + 1))
    echo "FAILED: $*"
}
# check MESSAGE COMMAND WORDS..
check() {
    local message=$1
    shift
    if "$@"; then good; else bad "$message"; fi
}

crates=$(sed 's/#.*//' crates.txt | sed -n 's/^\([a-z_0-9]*\)\( [^:]*\)\?:.*/\1/p')
is_crate() { grep -qx -- "$1" <<<"$crates"; }
# Whether a name stands by itself in some of the files: has_name NAME FILE..
has_name() {
    local name=$1
    shift
    NAME=$name awk 'BEGIN { name = ENVIRON["NAME"]; end = "[][ \t(){},:;.]" }
        index($0, name) { text = " " $0 " "; while ((at = index(text, name)) > 0) {
            if (substr(text, at - 1, 1) ~ end && substr(text, at + length(name), 1) ~ end) { found = 1; exit }
            text = substr(text, at + length(name)) } }
        END { exit !found }' "$@"
}
# The file of a folder that a dotted name leads to, and what is left of the name: file_in FOLDER DOTTED. A file may stand in a folder of it, named or not.
file_in() {
    local at=$1 left=$2 part inner
    while [ -n "$left" ]; do
        part=${left%%.*}
        if [ "$part" = "$left" ]; then left=; else left=${left#*.}; fi
        if [ -d "$at/$part" ] && [ -n "$left" ] && [ -e "$at/$part/${left%%.*}.antt" ]; then
            at=$at/$part
            continue
        fi
        if [ -f "$at/$part.antt" ]; then inner=$at/$part.antt; else inner=$(find "$at" -name "$part.antt" 2>/dev/null | head -n 1); fi
        echo "$inner $left"
        return
    done
}
# The same in specs/ of a crate, or where there is none in its proofs/: spec_file CRATE DOTTED.
spec_file() {
    local found
    found=$(file_in "crates/$1/specs" "$2")
    case $found in " "*) found=$(file_in "crates/$1/proofs" "$2") ;; esac
    echo "$found"
}
declares() { grep -qE "\b(fn|struct|enum|const) $2\b" crates/"$1"/src/*.rt; }
# Rattle's files and its specs and proofs, without what rt makes in a crate's out/.
sources() { find crates/*/src crates/*/specs crates/*/proofs -name '*.rt' -o -name '*.antt'; }
identifiers=$({ ls compare/src/bin | sed 's/\.rs$//' && sources | xargs cat && cat include/* compare/*.c compare/src/*.rs; } | grep -oE '[A-Za-z][A-Za-z0-9_-]*' | sort -u)
labels=$(find crates/*/must-fail -name '*.edit' -printf '%f\n' | sed 's/\.edit$//' | sort -u)

# One name of a document.
named() {
    local doc=$1 name=$2 crate file rest
    case $name in
    *CRATE* | *FILE* | *LABEL* | *NAME* | crates/*/out | crates/*/out/* | compare/target/*) return ;;
    crates/* | docs/* | tools/* | examples/* | include/* | compare/* | .ci/*)
        check "$doc: $name is not there" test -e "${name%% *}"
        return
        ;;
    esac
    if [[ $name =~ ^[a-z_0-9]+/[a-z_0-9]+$ ]]; then
        check "$doc: there is no must-fail edit $name" test -f "crates/${name%%/*}/must-fail/${name#*/}.edit"
    elif [[ $name =~ ^([a-z_0-9]+)::([A-Za-z_0-9]+::)*([A-Za-z_0-9]+)$ ]]; then
        crate=${BASH_REMATCH[1]} rest=${BASH_REMATCH[3]}
        case $crate in u8 | u32 | i32 | u64 | i64 | usize | std | io | libc) return ;; esac
        if ! is_crate "$crate"; then bad "$doc: $name: there is no crate $crate"; else check "$doc: $name is not in crates/$crate/src" declares "$crate" "$rest"; fi
    elif [[ $name =~ ^([a-z_0-9]+)\.([A-Z][A-Za-z]*(\.[^ .]+)*)$ ]]; then
        crate=${BASH_REMATCH[1]}
        read -r file rest < <(spec_file "$crate" "${BASH_REMATCH[2]}")
        if ! is_crate "$crate"; then
            bad "$doc: $name: there is no crate $crate"
        elif [ ! -f "$file" ]; then
            bad "$doc: $name: there is no such file in crates/$crate/specs or proofs"
        elif [ -n "$rest" ]; then
            check "$doc: $name is not in $file" has_name "$rest" "$file"
        else
            good
        fi
    elif [[ $name =~ ^[A-Z][A-Za-z]*\.[A-Za-z][^\ ]*$ ]] && [[ ! $name =~ \.(md|toml)$ ]]; then
        bad "$doc: $name is named without its crate"
    elif [[ $name =~ ^[a-z][a-z0-9]*(_[a-z0-9]+)+$ ]]; then
        if is_crate "$name" || grep -qx -- "$name" <<<"$identifiers"; then
            good
        elif grep -qx -- "$name" <<<"$labels"; then
            bad "$doc: the must-fail edit $name is named without its crate"
        else
            bad "$doc: there is no $name in the tree"
        fi
    elif [[ $name =~ ^[A-Za-z][A-Za-z0-9_]*([A-Z]|-[a-z])[A-Za-z0-9_-]*$ || $name =~ ^[A-Z][a-z]{3,}$ ]]; then
        check "$doc: there is no $name in the tree" grep -qx -- "$name" <<<"$identifiers"
    fi
}

for doc in README.md docs/*.md; do
    case $doc in docs/PORT.md | docs/DESIGN-PASS.md) continue ;; esac # they name what things were called before
    while IFS= read -r name; do named "$doc" "$name"; done < <(grep -oE '`[^`]+`' "$doc" | tr -d '`' | sort -u)
    while IFS= read -r name; do
        check "$doc: there is no crate $name" is_crate "$name"
    done < <(tr '\n' ' ' <"$doc" | grep -oE '\b[Cc]rates? `[a-z_0-9]+`(, `[a-z_0-9]+`)*( and `[a-z_0-9]+`)?' | grep -oE '`[^`]+`' | tr -d '`' | sort -u)
done

promises=docs/PROMISES.md
long=$(awk -v most="$most" '/^\|/ { n = split($0, cell, "|"); for (i = 2; i < n; i++) if (length(cell[i]) > most) { printf " %d", FNR; next } }' "$promises")
check "$promises: a table cell has over $most characters, line$long" test -z "$long"

for file in crates/*/src/*.rt; do
    crate=$(cut -d / -f 2 <<<"$file")
    if [ -f "crates/$crate/src/main.rt" ]; then continue; fi
    module=$(basename "$file" .rt)
    if [ "$module" = lib ]; then module=$crate; else module=$crate::$module; fi
    while IFS= read -r call; do
        check "$promises: the public call $module::$call has no promise" grep -qF -- "\`$module::$call\`" "$promises"
    done < <(sed -nE 's/^pub (extern "C" )?fn ([a-z_0-9]+).*/\2/p' "$file")
done

# The contract of a call, in one line: contract CALL.
contract() {
    local crate=${1%%::*}
    cat crates/"$crate"/src/*.rt | awk -v name="${1##*::}" '
        $0 ~ "fn " name "\\(" { within = 1; text = ""; next }
        within && /^\{/ { print text; within = 0 }
        within { sub(/^ */, ""); text = text " " $0 }'
}
# A section for a call has its three parts, and what is cited as its clause stands in its contract. A line for each part: the call, the part, the cited text.
while IFS=$'\t' read -r call part text; do
    case $part in
    missing) bad "$promises: the section of $call has no '$text'" ;;
    *)
        whole=$(contract "$call")
        if [[ $whole == *"{ $text }"* || $whole == *"($text)"* ]]; then good; else bad "$promises: the contract of $call has not the clause $text"; fi
        ;;
    esac
done < <(awk '
    function flush(i) {
        if (call == "") return
        for (i = 1; i <= 3; i++) if (!(parts[i] in seen)) print call "\tmissing\t" parts[i]
        delete seen
    }
    BEGIN { split("- Clause:,- One answer:,- Ruled out", parts, ",") }
    /^#/ { flush(); call = ""; in_clause = 0 }
    /^### `[a-z_0-9]+::/ { call = $0; sub(/^### `/, "", call); sub(/`.*/, "", call) }
    call != "" { for (i = 1; i <= 3; i++) if (index($0, parts[i]) == 1) seen[parts[i]] }
    /^- / { in_clause = /^- Clause:/ }
    /^$/ { in_clause = 0 }
    call != "" && in_clause {
        line = $0
        while (match(line, /`[^`]*`/)) {
            piece = substr(line, RSTART + 1, RLENGTH - 2)
            line = substr(line, RSTART + RLENGTH)
            if (piece ~ / /) print call "\tclause\t" piece
        }
    }
    END { flush() }' "$promises")

trusted=$(tools/trusted.sh <"$promises")
check "$promises lists no trusted file" test -n "$trusted"
is_trusted() { grep -qx -- "$1" <<<"$trusted"; }
for file in $trusted; do
    if [ ! -f "$file" ]; then
        bad "$promises: the trusted file $file is not there"
        continue
    fi
    proof=$(grep -nE '^[^-]*\b(refl|omega|subst|cc|simp|rw|search|grind|induction|absurd|axiom)\b' "$file" | grep -v '^[0-9]*: *--' | head -n 1)
    check "$file is trusted and proves something: $proof" test -z "$proof"
    while read -r crate dotted; do
        read -r other rest < <(spec_file "$crate" "$dotted")
        check "$file is trusted and rests on ${other:-$crate.$dotted}, which is not" is_trusted "$other"
    done < <(sed -nE '/^(pub )?use Rattle\.(std|core)\./d; s/^(pub )?use Rattle\.([a-z_0-9]+)\.(specs|proofs)\.([A-Za-z.]*).*/\2 \4/p' "$file" | sed 's/\.$//' | grep -v ' declared\.' | sort -u)
    # declared has the types of a crate's source
    while IFS= read -r crate; do
        check "$file is trusted and rests on types of crates/$crate/src/lib.rt, which is not" grep -qE "^\| \`crates/$crate/src/lib\.rt\`" "$promises"
    done < <(sed -nE 's/^(pub )?use Rattle\.([a-z_0-9]+)\.specs\.declared\..*/\2/p' "$file" | sort -u)
done
# A public call's contract cites trusted files alone, unless its section says of what it cites that it is 'no trusted file'. Its section has the call in its heading,
# or, where the heading says 'between crates', as the first cell of a table's row.
for file in crates/*/src/*.rt; do
    crate=$(cut -d / -f 2 <<<"$file")
    if [ -f "crates/$crate/src/main.rt" ]; then continue; fi
    module=$(basename "$file" .rt)
    if [ "$module" = lib ]; then module=$crate; else module=$crate::$module; fi
    while IFS= read -r call; do
        whole=$(contract "$crate::$call")
        section=$(awk -v call="\`$module::$call\`" '
            /^#/ { if (found) printf "%s", text; text = ""; found = index($0, call) > 0; between = /between crates/ }
            between && index($0, "| " call) == 1 { found = 1 }
            { text = text $0 "\n" }
            END { if (found) printf "%s", text }' "$promises")
        while read -r other dotted names; do
            read -r spec rest < <(spec_file "$other" "$dotted")
            for name in ${names//,/ }; do
                if ! grep -qE "(^|[^A-Za-z_-])$name([^A-Za-z_-]|$)" <<<"$whole"; then continue; fi
                if is_trusted "$spec" || [[ $section == *"no trusted file"* ]]; then
                    good
                else
                    bad "$promises: the contract of $crate::$call cites $name of $spec, which is not trusted"
                fi
            done
        done < <(tr '\n' ' ' <"$file" | grep -oE 'ghost use Rattle\.[^;]*;' | sed -E 's/[^ ,{]+ as //g' |
            sed -nE '/Rattle\.(std|core)\./d; s/^ghost use Rattle\.([a-z_0-9]+)\.specs\.([A-Z][A-Za-z.]*)\.\{ *(.*)\};/\1 \2 \3/p')
    done < <(sed -nE 's/^pub (extern "C" )?fn ([a-z_0-9]+).*/\2/p' "$file")
done
while IFS= read -r file; do
    if awk '/^--/ { print; next } { exit }' "$file" | grep -q 'Trusted:'; then
        check "$file says that it is trusted and is not in $promises" is_trusted "$file"
    fi
done < <(find crates/*/specs -name '*.antt' ! -name Lib.antt | sort)

for crate in $crates; do
    check "README.md: the table of crates has no crates/$crate" grep -qE "^\|.*\`crates/$crate\`" README.md
done

echo "$passed passed, $failed failed"
[ "$failed" -eq 0 ]
