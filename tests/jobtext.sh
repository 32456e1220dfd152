#!/usr/bin/env bash
# Runs the program `jobtext` on every tests/jobtext/NAME.in: its standard output must be NAME.out, its standard error empty and its exit status 0. The
# program is target/bin/jobtext, or the path in JOBTEXT.
set -u
cd "$(dirname "$0")/.." || exit 2
name=jobtext
. tools/judge.sh
program=$(program_at "${JOBTEXT:-target/bin/jobtext}") || exit 1

as_stored() { # INPUT
  "$program" <"$1" >"$work/out" 2>"$work/err"
  status=$?
  [ "$status" -eq 0 ] && [ ! -s "$work/err" ] && cmp -s "$work/out" "${1%.in}.out" && return
  echo "status $status"
  diff -a "${1%.in}.out" "$work/out" | head -n 6
  return 1
}

for input in tests/jobtext/*.in; do
  [ -e "$input" ] || continue
  judge "$(basename "$input" .in) differs" as_stored "$input"
done
verdict
