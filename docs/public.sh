#!/usr/bin/env bash
# Holds docs/THEOREMS.md to the public set: what crate writeback re-exports, methods of its types included, and what crate exports gives C. Each call has no `requires`,
# an `ensures`, a row in the page's part "Public calls", and, where its answer is an enum, an Option or a Result, that answer's meaning in its promise. Prints what is wrong and
# then fails.
set -euo pipefail
cd "$(dirname "$0")/.."

# A line for each public function of a crate: CRATE NAME ANSWER, and what its contract has. NAME is TYPE::METHOD for a method.
functions() {
    for crate in crates/*/; do
        crate=${crate%/}
        awk -v crate="${crate#crates/}" '
            /^impl[ <]/ { type = $0; sub(/^impl(<[^>]*>)? /, "", type); sub(/[ <{].*/, "", type); type = type "::" }
            /^}/ { type = "" }
            /^ *pub (extern "C" )?fn / { text = ""; taking = 1 }
            taking { text = text " " $0 }
            taking && /\{$/ && !/(requires|ensures)( [a-z_]+)? \{$/ {
                taking = 0
                name = text; sub(/.*[ ]fn /, "", name); sub(/.*pub fn /, "", name); sub(/[(<].*/, "", name)
                answer = "-"
                if (match(text, /\) -> [A-Za-z0-9_:]+/)) { answer = substr(text, RSTART + 5, RLENGTH - 5); sub(/.*::/, "", answer) }
                print crate, type name, answer, (text ~ / requires( [a-z_]+)? \{/ ? "requires" : "total"), (text ~ / ensures( [a-z_]+)? \{/ ? "ensures" : "silent"), (text ~ /(_means|_number) result / ? "means" : "bare")
            }' "$crate"/src/*.rt
    done
}
functions=$(functions)

# What this script could not read is an error, and not passed over.
loud() {
    echo "public: $1" >&2
    exit 1
}
[ -z "$(find crates/*/src -mindepth 2)" ] || loud "a folder under src/ is not read"
[ "$(wc -l <<< "$functions")" = "$(cat crates/*/src/*.rt | grep -cE '^ *pub .*\bfn ')" ] || loud "a public function was not read"
plain=$(sed 's,//.*,,' crates/writeback/src/*.rt | tr -s '\n ' '  ' | sed 's/; */;\n/g')
! grep -vnE '^ *(#!\[tactic\(auto\)\] )?(pub use \w+::(\w+|\{ ?\w+(, \w+)*,? ?\});)?$' <<< "$plain" >&2 || loud "crate writeback has an item that is no plain re-export"

# The items that writeback re-exports: CRATE NAME.
items() {
    grep -oE 'pub use .*;' <<< "$plain" | sed -E 's/^pub use (\w+)::/\1 /; s/[{},;]/ /g' | while read -r crate names; do
        for name in $names; do echo "$crate $name"; done
    done
}
while read -r crate name; do
    # A crate's root may pass it on from a module: pub use crate::MODULE::NAME;
    module=$(sed -nE "s/^pub use crate::(\w+)::$name;.*/\1/p" "crates/$crate/src/lib.rt")
    grep -qE "^pub (fn|struct|enum|type) $name\b" "crates/$crate/src/${module:-lib}.rt" || loud "$crate::$name is no function, struct, enum or type of its crate's root"
done < <(items)
# A type's other name may stand for one of these, too.
enums=$( (grep -ohE '^pub (enum|type) \w+' crates/*/src/*.rt | sed -E 's/pub (enum|type) //'; printf 'Option\nResult\n') | sort -u)

# The lines of what writeback re-exports: a function by its name, a type by its methods.
reexported() {
    items | while read -r crate name; do
        awk -v crate="$crate" -v name="$name" '$1 == crate && ($2 == name || index($2, name "::") == 1)' <<< "$functions"
    done
}
exported() { awk '$1 == "exports"' <<< "$functions"; }

# The names in the first column of the page's tables of public calls.
documented() {
    awk '/^## / { inside = ($0 == "## Public calls") } inside && /^\| `/' docs/THEOREMS.md | cut -d '|' -f 2 | grep -oE '`[A-Za-z0-9_:]+`' | tr -d '`'
}

wrong=0
if ! diff <( (reexported; exported) | cut -d ' ' -f 2 | sort) <(documented | sort) >&2; then
    echo "public: the calls of docs/THEOREMS.md (>) are not those of the crates (<)" >&2
    wrong=1
fi
while read -r crate name answer total ensures means; do
    [ "$total" = total ] || { echo "public: $crate $name has a requires" >&2; wrong=1; }
    [ "$ensures" = ensures ] || { echo "public: $crate $name promises nothing" >&2; wrong=1; }
    # C's answers are structs.
    if [ "$crate" != exports ] && [ "$means" != means ] && grep -qx "$answer" <<< "$enums"; then
        echo "public: $crate $name answers $answer, whose meaning is not in its promise" >&2
        wrong=1
    fi
done < <(reexported; exported)
[ "$wrong" = 0 ] || exit 1
[ -n "$(reexported)" ] && [ -n "$(exported)" ] || loud "nothing was found"
echo "public: $(reexported | wc -l) calls of crate writeback and $(exported | wc -l) of the C interface are total, promise their outcome and are in docs/THEOREMS.md"
