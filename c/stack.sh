#!/usr/bin/env bash
# The stack that each exported function takes at most: over the archive's code, the bytes that a function pushes and reserves, its return address, and the most
# of what it calls. It fails on a call that is not to a named function and on recursion; of what is outside the archive, only memcpy is called, which is all that a host has to give.
set -euo pipefail
archive=${1:-"$(dirname "$0")/../crates/exports/out/libexports.a"}
objdump -dr --no-show-raw-insn "$archive" | awk '
  /^[0-9a-f]+ <.*>:$/ { name = $0; sub(/^[0-9a-f]+ </, "", name); sub(/>:$/, "", name); known[name] = 1; order[++count] = name; next }
  name == "" { next }
  /[ \t]push[ \t]/ { bytes[name] += 8 }
  /[ \t]sub[ \t]+\$0x[0-9a-f]+,%rsp/ { hex = $0; sub(/.*\$0x/, "", hex); sub(/,.*/, "", hex); bytes[name] += number(hex) }
  /[ \t]call[ \t]+\*/ { print "stack: " name " calls through a pointer" > "/dev/stderr"; bad = 1 }
  /[ \t](call|jmp)[ \t]/ { last = "call" ; next }
  /R_X86_64_(PLT32|PC32)/ && last == "call" { callee = $NF; sub(/[-+]0x[0-9a-f]+$/, "", callee); sub(/^\.text\./, "", callee); calls[name] = calls[name] "\n" callee; last = "" ; next }
  { last = "" }
  function number(hex,    i, n) { n = 0; for (i = 1; i <= length(hex); i++) n = n * 16 + index("0123456789abcdef", substr(hex, i, 1)) - 1; return n }
  function most(f,    list, n, i, deepest, d) {
    if (f in done) return done[f]
    if (!(f in known)) { outside[f] = 1; return 0 }
    if (f in open) { print "stack: " f " calls itself" > "/dev/stderr"; bad = 1; return 0 }
    open[f] = 1
    n = split(calls[f], list, "\n"); deepest = 0
    for (i = 1; i <= n; i++) if (list[i] != "") { d = most(list[i]); if (d > deepest) deepest = d }
    delete open[f]
    return done[f] = bytes[f] + 8 + deepest
  }
  END {
    for (i = 1; i <= count; i++) if (order[i] ~ /^wb_/) { d = most(order[i]); if (d > top) { top = d; who = order[i] } }
    for (f in outside) if (f != "memcpy") { print "stack: calls " f > "/dev/stderr"; bad = 1 }
    print "stack: at most " top " bytes, in " who
    exit bad
  }'
