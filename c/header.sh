#!/usr/bin/env bash
# Holds include/writeback.h to the Rattle declarations and the Rust ones (ffi/) to the header: every exported function with its whole signature, and every struct with its
# fields in order. Prints the lines that only one of the two has, and then fails. It fails, too, where the C files call a function nowhere.
set -euo pipefail
cd "$(dirname "$0")/.."

# Rattle's and Rust's names for types as the header's.
c_types() {
    sed -E 's/\bu(8|16|32|64)\b/uint\1_t/g; s/\bi64\b/int64_t/g; s/\bf32\b/float/g; s/\busize\b/size_t/g
        s/\bMode\b/wb_mode/g; s/\bCombinerUniform\b/wb_uniform/g; s/\bParts\b/wb_combiner/g; s/\bRgba\b/wb_rgba/g; s/\bScissor\b/wb_scissor/g; s/\bGeometryParts\b/wb_geometry/g
        s/\bAnswer\b/wb_answer/g; s/\bSelectors\b/wb_selectors/g; s/\bColorAnswer\b/wb_color_answer/g; s/\bCombinerAnswer\b/wb_combiner_answer/g; s/\bStrictAnswer\b/wb_strict_answer/g
        s/\bFragmentAnswer\b/wb_fragment/g; s/\bDrawnAnswer\b/wb_drawn/g; s/\bRanAnswer\b/wb_run/g; s/\bEmittedAnswer\b/wb_emitted/g; s/\bListedAnswer\b/wb_emitted_run/g'
}

# One line, without comments; the header without its preprocessor's lines, too.
plain_text() { sed 's,//.*,,' "$@" | tr -s '\n ' ' '; }
header_text() { grep -v '^#' include/writeback.h | tr '\n' ' ' | sed -E 's,/\*([^*]|\*+[^*/])*\*+/,,g' | tr -s ' '; }

# A slice is a pointer and a length.
rattle_functions() {
    plain_text crates/exports/src/*.rt | grep -oE '#\[unsafe\(no_mangle\)\] pub extern "C" fn [^{]* ensures' |
        sed -E 's/.* fn (\w+)\( ?(.*[^ ,]),? ?\) -> (\w+) ensures/\3 \1(\2)/
            s/(\w+): &mut \[(\w+)\]/\2 *\1, usize \1_len/g; s/(\w+): &\[(\w+)\]/const \2 *\1, usize \1_len/g; s/(\w+): (\w+)/\2 \1/g' | c_types
}
# What takes a pointer is unsafe, and the rest is safe.
rust_functions() {
    plain_text ffi/src/lib.rs | grep -oE '\bunsafe extern "C" \{[^}]*\}' | tr ';{}' '\n\n\n' |
        sed -nE 's/^ *pub unsafe fn (\w+)\( ?(.*\*.*[^ ,]),? ?\) -> (\w+)$/\3 \1(\2)/p; s/^ *pub safe fn (\w+)\( ?([^*]*[^ ,*]),? ?\) -> (\w+)$/\3 \1(\2)/p' |
        sed -E 's/(\w+): \*mut (\w+)/\2 *\1/g; s/(\w+): \*const (\w+)/const \2 *\1/g; s/(\w+): (\w+)/\2 \1/g' | c_types
}
header_functions() { header_text | tr ';{}' '\n\n\n' | sed -nE 's/^ *(\w+ wb_\w+\(.*\)) *$/\1/p'; }

# NAME: TYPE FIELD; TYPE FIELD[N]; ..
structs() {
    grep -oE '#\[repr\(C\)\] (#\[derive\([^)]*\)\] )?pub struct \w+ \{[^}]*\}' |
        sed -E 's/.* struct (\w+) \{ (.*) \}/\1: \2/; s/pub (\w+): \[(\w+); ([0-9]+)\], ?/\2 \1[\3]; /g; s/pub (\w+): (\w+), ?/\2 \1; /g; s/ +$//' | c_types
}
rattle_structs() { plain_text crates/{state,raster_pixel,c_types,c_answers,c_draw,c_frame}/src/*.rt | structs; }
rust_structs() { plain_text ffi/src/lib.rs | structs; }
header_structs() {
    header_text | grep -oE 'typedef struct \{[^}]*\} \w+;' |
        sed -E 's/typedef struct \{ (.*) \} (\w+);/\2: \1/; :a; s/(\w+) (\w+), (\w+)/\1 \2; \1 \3/; ta'
}

for part in functions structs; do
    for side in rattle rust; do
        if ! diff <("${side}_$part" | sort) <("header_$part" | sort) >&2; then
            echo "c: the header's $part (>) are not those of ${side^} (<)" >&2
            exit 1
        fi
    done
    count=$("header_$part" | wc -l) || true
    if [ "$count" -eq 0 ]; then
        echo "c: no $part were found" >&2
        exit 1
    fi
    echo "c: $count $part are declared alike in Rattle, C and Rust"
done

for name in $(header_functions | sed -E 's/^\w+ (\w+)\(.*/\1/'); do
    if ! grep -q "\b$name(" c/test.c; then
        echo "c: test.c does not call $name" >&2
        exit 1
    fi
done
