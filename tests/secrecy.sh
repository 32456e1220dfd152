#!/usr/bin/env bash
# What t labs together can see, counted in the smallest books: the wrapper's example, from the library, and tools/secrecy_table.py, from the reference
# implementation, print what is stored, and docs/SECRECY.md shows it.
set -u
cd "$(dirname "$0")/.." || exit 2
name=secrecy
. tools/library.sh
stored=rust/yikescanvas/examples/secrecy.out

cargo run --release --offline --quiet --manifest-path rust/yikescanvas/Cargo.toml --example secrecy >"$work/library" 2>"$work/log" ||
  fail "a count of the library is otherwise" "$work/log"
diff "$stored" "$work/library" >"$work/log" || fail "the library's counts are not as stored" "$work/log"
python3 tools/secrecy_table.py >"$work/reference" 2>"$work/log" || fail "the reference implementation failed" "$work/log"
diff "$stored" "$work/reference" >"$work/log" || fail "the reference implementation's counts are not as stored" "$work/log"
{ python3 tools/documents.py --block coefficients && echo && python3 tools/documents.py --block counts; } >"$work/shown" || exit 1
diff "$stored" "$work/shown" >"$work/log" || fail "docs/SECRECY.md shows other counts" "$work/log"
echo "secrecy: $(grep -c '^[12] 2 3 ' "$stored") groups of labs counted, by the library and by the reference implementation"
