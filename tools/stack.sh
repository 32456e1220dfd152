#!/usr/bin/env bash
# stack.sh open|mend|jobtext [TIMES]: the stack that a program needs, as README.md states it: the smallest limit of `ulimit -s`, in steps of 4 KiB,
# within which it prints every stored case as it should, so many times each (20, or the second argument); `mend` makes a new file too, which takes
# more than none. Where the system puts the stack's first byte varies from run to run, so one run is not enough; the environment lies on the stack
# too, and is empty here. The programs are those of target/bin, or the paths in OPEN, MEND and JOBTEXT.
set -u
cd "$(dirname "$0")/.." || exit 2
name=${1:-}
times=${2:-20}
work=$(mktemp -d) || exit 2
trap 'rm -rf "$work"' EXIT
case $name in
open) path=${OPEN:-target/bin/open} ;;
mend) path=${MEND:-target/bin/mend} ;;
jobtext) path=${JOBTEXT:-target/bin/jobtext} ;;
*) echo "usage: stack.sh open|mend|jobtext [TIMES]"; exit 2 ;;
esac
. tools/programs.sh
command=("$(program_at "$path")") || exit 1
[ "$name" != mend ] || command+=("$work/new")

# Whether every stored case holds within a limit, in KiB.
holds() {
  local input i
  for input in tests/"$name"/*.in; do
    for ((i = 0; i < times; i++)); do
      rm -f "$work/new"
      if ! (set -o pipefail && ulimit -s "$1" && env -i "${command[@]}" <"$input" | cmp -s - "${input%.in}.out") 2>/dev/null; then
        echo "$1 KiB: $(basename "$input" .in) fails"
        return 1
      fi
      if [ -e "${input%.in}.new" ] && ! cmp -s "$work/new" "${input%.in}.new"; then
        echo "$1 KiB: the new file of $(basename "$input" .in) fails"
        return 1
      fi
    done
  done
}

for ((limit = 64; limit <= 1024; limit += 4)); do
  if holds "$limit"; then
    echo "stack: $name, $limit KiB, $times times $(find "tests/$name" -name '*.in' | wc -l) cases"
    exit 0
  fi
done
exit 1
