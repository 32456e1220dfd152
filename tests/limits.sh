#!/usr/bin/env bash
# What no theorem bounds: `open` lists its largest inputs, `mend` mends its own, with a new file and without, `jobtext` prints those of its own,
# and all refuse empty, cut and overlong ones, within a stack of 256 KiB, and within a second each (the slowest takes 0.02).
set -u
cd "$(dirname "$0")/.." || exit 2
name=limits
. tools/programs.sh
open=$(program_at "${OPEN:-target/bin/open}") || exit 1
mend=$(program_at "${MEND:-target/bin/mend}") || exit 1
jobtext=$(program_at "${JOBTEXT:-target/bin/jobtext}") || exit 1
work=$(mktemp -d) || exit 2
trap 'rm -rf "$work"' EXIT

# A program that dies after its text, or has none to print, is told of by its status alone.
within() { # CASE PROGRAM ARGUMENT..: the text of a stored case within the limits
  if ! (set -o pipefail && ulimit -s 256 && timeout 1 "${@:2}" <"$1.in" | cmp -s - "$1.out"); then
    echo "limits: $1 failed"
    exit 1
  fi
}

largest="long-different-bits long-63-holders long-longest-accepted long-1000-jobs"
refused="empty order-alone cut-112 byte-010 stranger-last-file long-65536-bytes-cut long-shortest-too-long long-65537-zeros"
for name in $largest $refused; do
  within "tests/open/$name" "$open"
done
"$open" <samples/labs.bundle | cmp - samples/labs.out || exit 1

refused="empty order-alone cut-113 book-k65 stranger-number long-65536-bytes long-65537-zeros"
for name in $largest long-727-jobs $refused; do
  within "tests/mend/$name" "$mend"
  within "tests/mend/$name" "$mend" "$work/new"
  if [ -e "tests/mend/$name.new" ]; then
    cmp "$work/new" "tests/mend/$name.new" && rm "$work/new" || exit 1
  fi
done

for input in tests/jobtext/long-*.in tests/jobtext/empty.in tests/jobtext/labs.in; do
  within "${input%.in}" "$jobtext"
done
echo "limits: stack and time hold, for accepted and refused inputs; the sample lists as stored"
