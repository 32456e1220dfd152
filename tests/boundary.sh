#!/usr/bin/env bash
# The boundary for C and Rust: builds the static library, looks at what it needs from outside, runs tests/boundary/main.c against
# include/yikescanvas.h, plain and under valgrind, then
# the tests of the Rust wrapper and its example against the stored output.
set -u
cd "$(dirname "$0")/.." || exit 2
name=boundary
. tools/library.sh
library=$YIKES_LIB_DIR/libboundary.a

# What README.md says that the library needs from outside, and no more.
needs=$(nm -u "$library" 2>/dev/null | awk '$1 == "U" { print $2 }' | sort -u | tr '\n' ' ')
[ "$needs" = "memcpy memset " ] || fail "the library needs from outside: $needs"

warnings="-Wall -Wextra -Wpedantic -Werror"
# shellcheck disable=SC2086
${CC:-cc} -std=c99 $warnings -O1 -g -I include tests/boundary/main.c "$library" -o "$work/main" 2>"$work/log" ||
  fail "main.c does not compile" "$work/log"
if command -v c++ >/dev/null 2>&1; then
  # shellcheck disable=SC2086
  c++ -std=c++11 $warnings -x c++ -fsyntax-only include/yikescanvas.h 2>"$work/log" || fail "the header is not for C++" "$work/log"
fi
checks=$("$work/main") || { echo "$checks"; fail "the C program failed"; }
valgrind -q --leak-check=full --error-exitcode=9 "$work/main" >"$work/log" 2>&1 || fail "valgrind found errors" "$work/log"

manifest=rust/yikescanvas/Cargo.toml
cargo test --release --offline --quiet --manifest-path "$manifest" >"$work/log" 2>&1 || fail "the tests of the Rust wrapper failed" "$work/log"
tests=$(awk '/^test result: ok/ { n += $4 } END { print n }' "$work/log")
cargo run --release --offline --quiet --manifest-path "$manifest" --example year >"$work/year" 2>"$work/log" || fail "the example failed" "$work/log"
diff rust/yikescanvas/examples/year.out "$work/year" >"$work/log" || fail "the example wrote something else" "$work/log"

echo "boundary: $checks in C, also under valgrind; $tests tests in Rust; the example's output as stored"
