#!/usr/bin/env bash
# The C interface from C: the header against the crates, the stack's bound, then test.c and recorded.c built in a temporary folder and run, as C++11 and as C11, with every warning an error. The
# last line is 'c: N checks passed'. It needs gcc and g++.
set -euo pipefail
cd "$(dirname "$0")"
./header.sh

room=$(mktemp -d)
trap 'rm -rf "$room"' EXIT
../library.sh
library=../crates/exports/out/libexports.a
./stack.sh "$library"
flags=(-Wall -Wextra -Wpedantic -Werror -O1 -I ../include)
gcc -std=c11 "${flags[@]}" -o "$room/as_c" test.c recorded.c "$library" -lm
g++ -std=c++11 "${flags[@]}" -x c++ -o "$room/as_cpp" test.c recorded.c -x none "$library" -lm
for program in as_cpp as_c; do
    "$room/$program" ../crates/replay/stdin counts.txt ../crates/replay_lists/stdin
done
