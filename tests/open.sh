#!/usr/bin/env bash
# Runs the program `open` on every tests/open/NAME.in: its standard output must be NAME.out, its standard error empty and its
# exit status 0. The program is target/bin/open, or the path in OPEN.
set -u
cd "$(dirname "$0")/.." || exit 2
name=open
. tools/judge.sh
program=$(program_at "${OPEN:-target/bin/open}") || exit 1

as_stored() { # INPUT
  "$program" <"$1" >"$work/out" 2>"$work/err"
  status=$?
  [ "$status" -eq 0 ] && [ ! -s "$work/err" ] && cmp -s "$work/out" "${1%.in}.out" && return
  echo "status $status"
  diff "${1%.in}.out" "$work/out" | head -n 6
  return 1
}

for input in tests/open/*.in; do
  [ -e "$input" ] || continue
  judge "$(basename "$input" .in) differs" as_stored "$input"
done
verdict
