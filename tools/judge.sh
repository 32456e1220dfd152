# Sourced by the tests that run the programs: a folder of their own in work, and judge, which counts what passes. `name` is the test's.
# shellcheck shell=bash
. tools/programs.sh
work=$(mktemp -d) || exit 2
trap 'rm -rf "$work"' EXIT
passed=0
failed=0
judge() { # WHAT TEST..: a case that fails is told of with the first lines of $work/err
  local what=$1
  shift
  if "$@"; then
    passed=$((passed + 1))
  else
    failed=$((failed + 1))
    echo "$name: $what"
    head -n 3 "$work/err"
  fi
}

verdict() {
  echo "$name: $passed cases passed, $failed failed"
  [ "$passed" -gt 0 ] && [ "$failed" -eq 0 ]
}
