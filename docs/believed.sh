#!/usr/bin/env bash
# Which definitions a reader must believe: those that the contracts of the public calls cite, those of the three theorems on whole lists, of what either engine leaves and of what is certain, of the proved table, of the law
# `one_range`, of the law `by_count` and of the needs of the loads, and, through their bodies, what these cite in turn. Every other definition under crates/*/specs is vocabulary of inner functions, tied to the believed
# ones by proof. Holds the first line of each file of specs/, and the tables of docs/THEOREMS.md, to that; prints what is wrong and then fails.
set -euo pipefail
cd "$(dirname "$0")/.."

closure() {
awk '
# ---- names
# A path of a use line as crate/Module, or "" where it is no file of specs: Rattle.frame.specs.Frame.
function module_of(path,    rest) {
    if (index(path, "Rattle.") != 1) return ""
    rest = substr(path, length("Rattle.") + 1)
    if (!match(rest, /^[a-z_0-9]+\.specs\.[A-Z][A-Za-z0-9]*$/)) return ""
    sub(/\.specs\./, "/", rest)
    return rest
}

function trimmed(s) { gsub(/^[ \t]+|[ \t]+$/, "", s); return s }

# A use line of a file: what its names, or its alias, stand for.
function import_line(file, s,    open, path, names, n, i, name) {
    sub(/^[ \t]*(ghost )?use /, "", s); sub(/;[ \t]*$/, "", s)
    if (s ~ / as [A-Za-z_]+[ \t]*$/) {
        name = s; sub(/.* as /, "", name); path = s; sub(/ as .*/, "", path)
        if (module_of(trimmed(path)) != "") alias[file, trimmed(name)] = module_of(trimmed(path))
        return
    }
    open = index(s, ".{")
    if (!open) return
    path = substr(s, 1, open - 1); names = substr(s, open + 2); sub(/}.*/, "", names)
    if (module_of(path) == "") return
    n = split(names, part, ",")
    for (i = 1; i <= n; i++) { name = trimmed(part[i]); if (name != "") imported[file, name] = module_of(path) "/" name }
}

# What crate writeback re-exports: pub use CRATE::NAME; or pub use CRATE::{NAME, NAME};
function reexported(s,    at, path, names, n, i) {
    sub(/^ *pub use /, "", s); sub(/;.*/, "", s)
    at = index(s, "::"); path = substr(s, 1, at + 1); names = substr(s, at + 2); gsub(/[{}]/, "", names)
    n = split(names, part, ",")
    for (i = 1; i <= n; i++) if (trimmed(part[i]) != "") public[path trimmed(part[i])] = 1
}

# What a name in a file stands for: a definition, or "".
function meaning(file, module, name,    dot, head, d) {
    if ((file, name) in imported) return ((imported[file, name] in defined) ? imported[file, name] : "")
    if (module != "" && ((module "/" name) in defined)) return module "/" name
    dot = index(name, ".")
    if (dot > 1) {
        head = substr(name, 1, dot - 1)
        if ((file, head) in alias) { d = alias[file, head] "/" substr(name, dot + 1); return ((d in defined) ? d : "") }
        return meaning(file, module, head)
    }
    return ""
}

# What a name begins with: the value of a projection, as x of x.mark.
function head_of_name(name) { sub(/\..*/, "", name); return name }

# Brackets and the like become blanks; a dot behind a name (λ x.) goes, one before it (a projection) stays.
function spaced(s) { gsub(/[(){};,]|\[|\]/, " ", s); gsub(/\. /, " ", s); return " " s " " }

# Every definition that a text cites, but for those whose name is bound in it.
function cite(from, file, module, s,    n, i, d, word, w) {
    n = split(spaced(s), word, /[ \t]+/)
    for (i = 1; i <= n; i++) {
        w = word[i]
        if (w == "" || substr(w, 1, 1) == ".") continue
        if (word[i + 1] == "=") continue
        d = meaning(file, module, w)
        if (d == "" || d == from) continue
        if ((from, w) in bound || (from, head_of_name(w)) in bound) continue
        if (!((from, d) in cites)) { cites[from, d] = 1; cited[from] = cited[from] " " d }
    }
}

# Names that a definition binds: the patterns of its clauses, let and λ.
function bind(from, s,    n, i, word, w, on) {
    n = split(spaced(s), word, /[ \t]+/)
    for (i = 1; i <= n; i++) if (word[i] != "") bound[from, word[i]] = 1
}
function bind_inside(from, s,    rest, upto, w) {
    rest = s
    while (match(rest, /let [^ ]+/)) { bound[from, substr(rest, RSTART + 4, RLENGTH - 4)] = 1; rest = substr(rest, RSTART + RLENGTH) }
    rest = s
    while (match(rest, /λ [^.]*\./)) { w = substr(rest, RSTART + length("λ "), RLENGTH - length("λ ") - 1); sub(/ :.*/, "", w); bind(from, w); rest = substr(rest, RSTART + RLENGTH) }
}

function indent_of(s) { match(s, /^ */); return RLENGTH }

# ---- the definitions
FNR == 1 {
    first[FILENAME] = $0
    file = FILENAME; specs = (file ~ /\/specs\//); split(file, step, "/"); crate = step[2]
    module = ""; here = ""; call = ""; type = ""; gathering = 0
    if (specs) { module = crate "/" step[4]; sub(/\.antt$/, "", module); files[++file_count] = file; module_file[file] = module }
}

specs {
    line = $0
    if (line ~ /^[ \t]*--/) next
    sub(/[ \t]+-- .*$/, "", line)
    if (line ~ /^[ \t]*$/) next
    if (line ~ /^use /) { import_line(file, line); next }
    if (line ~ /^pub mod /) next
    if (line ~ /^module /) { here = ""; in_record = 0; next }
    depth = indent_of(line)
    if (depth <= record_depth) in_record = 0
    head = trimmed(line); name = ""
    if (head ~ /^pub (record|data) /) { name = head; sub(/^pub (record|data) /, "", name); sub(/[ (:].*/, "", name) }
    else if (head ~ /^(abbrev |unfoldable )?(pub )?[^ ]+ :/ && !(in_record && depth > record_depth)) {
        if (head ~ /^(abbrev |unfoldable |pub )/) { name = head; sub(/^(abbrev |unfoldable )/, "", name); sub(/^pub /, "", name); sub(/ .*/, "", name) }
    }
    if (name != "") {
        here = module "/" name; defined[here] = 1; order[file] = order[file] " " here; short[here] = name
        in_record = (head ~ /^pub (record|data) /); record_depth = depth
        where_from[here] = file
    }
    if (here == "") next
    if (head ~ /^unfolding /) next
    text[here] = text[here] "\n" line
    next
}

# ---- the public calls
{
    line = $0
    if (line ~ /^[ \t]*\/\//) next
    sub(/[ \t]+\/\/ .*$/, "", line)
    if (line ~ /^ghost use /) { import_line(file, line); next }
    if (crate == "writeback" && (reexport != "" || line ~ /^pub use /)) {
        reexport = reexport " " line
        if (line ~ /;/) { reexported(reexport); reexport = "" }
        next
    }
    if (line ~ /^impl[ <]/) { type = line; sub(/^impl(<[^>]*>)? /, "", type); sub(/[ <{].*/, "", type); next }
    if (line ~ /^}/) { type = ""; call = ""; gathering = 0 }
    if (line ~ /^ *(pub )?(extern "C" )?fn /) {
        open_call = (line ~ /^ *pub /); name = line
        sub(/^ *(pub )?(extern "C" )?fn /, "", name); sub(/[(<].*/, "", name)
        call = crate "::" (type != "" ? type "::" : "") name
        head_of[call] = crate "::" (type != "" ? type : name); open_fn[call] = open_call
        if (!(call in file_of)) made[++calls_made] = call
        file_of[call] = file; gathering = 0
    }
    if (call == "") next
    if (line ~ /^ *requires/) gathering = 0
    if (line ~ /^ *ensures/) gathering = 1
    if (line ~ /^ *\{$/) { gathering = 0; call = ""; next }
    if (gathering) contract[call] = contract[call] " " line
    next
}

function root(d) { if (d in defined) { if (!(d in believed)) { believed[d] = 1; queue[++last] = d } } else { print "believed: no definition " d > "/dev/stderr"; failed = 1 } }

function listed(file, wanted,    n, i, part, s) {
    n = split(order[file], part, " "); s = ""
    for (i = 1; i <= n; i++) if ((part[i] in believed) == wanted) s = s " " short[part[i]]
    return s
}
function count(s,    part) { return split(s, part, " ") }

END {
    # what each definition cites
    for (d in defined) {
        n = split(text[d], part, "\n")
        for (i = 1; i <= n; i++) {
            s = trimmed(part[i])
            if (index(s, short[d] " ") == 1 && (e = index(s, " = "))) bind(d, substr(s, length(short[d]) + 1, e - length(short[d])))
            else if (index(s, short[d] " ") == 1 && s ~ /=$/) bind(d, substr(s, length(short[d]) + 1, length(s) - length(short[d]) - 1))
            bind_inside(d, s)
        }
        for (i = 1; i <= n; i++) {
            s = part[i]; t = trimmed(s)
            # the left of a clause is patterns
            if (index(t, short[d] " ") == 1) { if (e = index(t, " = ")) s = substr(t, e + 3); else if (t ~ /=$/) continue }
            cite(d, where_from[d], module_file[where_from[d]], s)
        }
    }
    # what the public calls cite
    for (k = 1; k <= calls_made; k++) {
        c = made[k]
        if (!open_fn[c]) continue
        if ((head_of[c] in public) || c ~ /^exports::/) {
            cite("call " c, file_of[c], "", contract[c])
            n = split(cited["call " c], part, " ")
            for (i = 1; i <= n; i++) root(part[i])
        }
    }
    root("frame_draw/Outcome/Outcome"); root("frame_emitted/Outcomes/PixelOutcome"); root("frame_emitted/Outcomes/PixelsOutcome")
    root("theorem_calls/Choices/SameButChoices"); root("theorem_calls/Choices/rechosen"); root("theorem_calls/Choices/SameOutcome")
    root("theorem_secrecy/Runs/Secret"); root("frame/Alike/Alike"); root("theorem_truth/Truth/Truth"); root("theorem_truth/Completed/completed"); root("theorem_truth/Console/console_after_all"); root("frame/Knows/AllKnown")
    root("frame_pixel/Certain/CertainColors"); root("frame_pixel/Certain/CertainCoverage"); root("frame_pixel/Certain/SameAtEnds")
    root("theorem_values/Table/table"); root("theorem_values/Table/Holds"); root("words_pack/Depth/Within"); root("writeback_pixel/Counted/counted"); root("frame/Loads/ColorKnown"); root("frame/Loads/CoverageKnown"); root("frame/Loads/Loadable")
    for (at = 1; at <= last; at++) { n = split(cited[queue[at]], part, " "); for (i = 1; i <= n; i++) root(part[i]) }

    for (i = 1; i <= file_count; i++) {
        f = files[i]; if (order[f] == "") continue
        plus = listed(f, 1); minus = listed(f, 0)
        if (first[f] ~ /^-- To be believed\. /) { if (minus != "") { print "believed: " f " is to be believed, but nothing public rests on:" minus > "/dev/stderr"; failed = 1 } tag = "believed" }
        else if (first[f] ~ /^-- Inner vocabulary\. /) { if (plus != "") { print "believed: " f " is inner vocabulary, but public calls rest on:" plus > "/dev/stderr"; failed = 1 } tag = "inner" }
        else { print "believed: the first line of " f " does not say which it is" > "/dev/stderr"; failed = 1 }
        name = f; sub(/.*\//, "", name); sub(/\.antt$/, "", name); split(f, step, "/")
        print tag, step[2], name, count(plus), count(minus)
    }
    exit failed
}
' crates/*/specs/*.antt crates/*/src/*.rt
}

# The tables of the page: a line for each crate, with its files.
table() {
    awk -v want="$1" '$1 == want { if (!($2 in names)) order[++n] = $2; names[$2] = names[$2] (names[$2] == "" ? "" : ", ") $3 }
        END { for (i = 1; i <= n; i++) print "| " order[i] " | " names[order[i]] " |" }' <<< "$files"
}
if [ -n "$(find crates/*/specs crates/*/src -mindepth 2)" ] || grep -nE '^use .*\{[^}]*$' crates/*/specs/*.antt >&2 || grep -nE '^ *ghost use .*\{[^}]*$' crates/*/src/*.rt >&2; then
    echo "believed: a folder under specs/ or src/, or a use line of definitions that goes on, is not read" >&2
    exit 1
fi
files=$(closure)
documented() { awk -v want="### $1" '/^#/ { inside = ($0 == want) } inside && /^\| [a-z_]+ \| [A-Z]/' docs/THEOREMS.md; }
if ! diff <(table believed) <(documented "To be believed") >&2 || ! diff <(table inner) <(documented "Inner vocabulary") >&2; then
    echo "believed: the files of docs/THEOREMS.md (>) are not those of the crates (<)" >&2
    exit 1
fi
awk '{ b += $4; i += $5; n[$1]++ } END { print "believed: " b " of " b + i " definitions, in " n["believed"] " files; the rest is inner vocabulary, in " n["inner"] " files" }' <<< "$files"
