#!/usr/bin/env bash
# The library beside the second implementation in rust/second: its own tests, then random openings, bundles and job texts.
set -u
cd "$(dirname "$0")/.." || exit 2
name=compare
. tools/library.sh

cd rust || exit 2
cargo test --release --offline --quiet -p second -p plain >"$work/log" 2>&1 || fail "the tests of the second implementation failed" "$work/log"
timeout 900 cargo run --release --offline --quiet -p compare -- --openings 200000 --bundles 20000 --texts 20000 --seed 1 >"$work/log" 2>&1 ||
  fail "the library and the second implementation differ, or one does not end" "$work/log"
echo "compare: $(grep -c "the same" "$work/log") comparisons without a difference: $(grep -o "^[0-9]* [a-z]* the same" "$work/log" | tr '\n' ';')"
