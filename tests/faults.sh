#!/usr/bin/env bash
# What the programs do where a read or a write fails. After a failed read nothing stands on standard output; after a failed write a beginning of the
# right text; standard error says which failed. Calls that are interrupted, not ready, or move a part are tried again, and the text is whole. A new
# file of `mend` stands there whole, after the whole text, or not at all.
set -u
cd "$(dirname "$0")/.." || exit 2
name=faults
. tools/judge.sh
${CC:-cc} -std=c99 -Wall -Wextra -O1 -shared -fPIC tests/faults/shim.c -o "$work/shim.so" || { echo "faults: shim.c does not compile"; exit 1; }

# The program that is tried, its stored cases, and its arguments: none, or the name of a new file.
choose() { # PROGRAM PATH ARGUMENT..
  tried=$1
  name="faults: $1"
  program=$(program_at "$2") || exit 1
  cases=tests/$1
  arguments=("${@:3}")
}

silent() { [ ! -s "$work/err" ]; }
says() { [ "$(wc -l <"$work/err")" -eq 1 ] && grep -q "^$tried: $1: " "$work/err"; }
text() { cmp -s "$work/out" "$cases/$1.out"; }
unmade() { [ ! -e "$work/new" ]; }
made() { # NAME: the new file, where one is asked for and the input is not refused
  if [ "${#arguments[@]}" -gt 0 ] && [ -e "$cases/$1.new" ]; then cmp -s "$work/new" "$cases/$1.new"; else unmade; fi
}
whole() { text "$1" && made "$1" && silent; }                                       # the right text, the right file and no more
none() { [ ! -s "$work/out" ] && unmade && says "standard input"; }                 # a read failed
begins() { # NAME SIZE: a write failed after so many bytes
  [ "$(wc -c <"$work/out")" -eq "$2" ] && cmp -s "$work/out" <(head -c "$2" "$cases/$1.out") && unmade && says "standard output"
}
undone() { text "$1" && unmade && says "the new file"; }                            # the new file failed

run() {
  rm -f "$work/new"
  "$program" "${arguments[@]}"
}

shimmed() { # READS WRITES NAME TEST..
  local input=$3
  rm -f "$work/new"
  READS=$1 WRITES=$2 LD_PRELOAD="$work/shim.so" "$program" "${arguments[@]}" <"$cases/$input.in" >"$work/out" 2>"$work/err" ||
    echo "status $?" >>"$work/err"
  judge "$input with reads '$1', writes '$2', saves '${SAVES:-}', syncs '${SYNCS:-}'" "${@:4}"
}

# error numbers: 4 interrupted, 5 I/O, 11 not ready, 28 no space
injected() { # SHORT LONG: the faults of reading and writing, on a short input and on one with a long text
  local reads writes count input first
  for reads in "" "e4" "e11" "e4 1 *" "e11 e4 e11 100 *" "7 1 *"; do
    for writes in "" "e4" "e11" "e4 1 *" "e11 e4 3 *"; do
      shimmed "$reads" "$writes" "$1" whole "$1"
      shimmed "$reads" "$writes" "$2" whole "$2"
    done
  done

  # of the sample, 173 bytes are the order and two of the three files, which alone list another job; the last count is all of the input
  for count in 1 6 7 30 90 173 255 "$(wc -c <"$cases/$1.in")"; do
    shimmed "$count e5" "" "$1" none
    shimmed "e4 $count e11 e5" "" "$1" none
  done
  shimmed "e5" "" "$1" none
  shimmed "65536 e5" "" long-65537-zeros none
  shimmed "65537 e5" "" long-65537-zeros whole long-65537-zeros

  shimmed "" "e5" "$1" begins "$1" 0
  shimmed "" "e28" "$1" begins "$1" 0
  shimmed "" "0" "$1" begins "$1" 0
  for input in "$1" "$2"; do
    first=$(head -n 1 "$cases/$input.out" | wc -c)
    for count in 1 $((first - 1)) "$first"; do
      shimmed "" "$count e5" "$input" begins "$input" "$count"
      shimmed "" "e4 $count e11 e28" "$input" begins "$input" "$count"
    done
    shimmed "" "$first 10 e5" "$input" begins "$input" $((first + 10))
  done
}

# the system's own failures
closed() { # SHORT
  local input=$cases/$1.in
  run <"$input" >/dev/full 2>"$work/err"
  judge "a full device" says "standard output"
  run <"$input" >&- 2>"$work/err"
  judge "closed standard output" says "standard output"
  judge "no file after a failed write" unmade
  run <&- >"$work/out" 2>"$work/err"
  judge "closed standard input" none
  run </ >"$work/out" 2>"$work/err"
  judge "a directory" none
  : >"$work/err"
  run <"$input" >"$work/out" 2>&-
  judge "closed standard error" whole "$1"
  run <&- >"$work/out" 2>&-
  judge "closed standard input and error" [ $? -eq 0 -a ! -s "$work/out" ]
  run <&- >&- 2>&-
  judge "all closed" [ $? -eq 0 ]
}

piped() { # LONG
  python3 tests/faults/pipes.py "$tried" "$program" "$cases/$1.in" "$cases/$1.out"
  judge "pipes" [ $? -eq 0 ]
}

choose open "${OPEN:-target/bin/open}"
injected sample long-1000-jobs
closed sample
piped long-1000-jobs

# The sample's d is 2, so the labs' own is the short input here; cut between two files every job of it would give 5. The long one has the longest
# text.
choose jobtext "${JOBTEXT:-target/bin/jobtext}"
long=$(basename "$(find "$cases" -name '*.out' -printf '%s %p\n' | sort -n | tail -n 1)" .out)
injected labs "$long"
for count in 306 2997; do
  shimmed "$count e5" "" labs none
done
closed labs
piped "$long"

choose mend "${MEND:-target/bin/mend}"
injected sample long-727-jobs
closed sample
piped long-727-jobs

choose mend "$program" "$work/new"
injected sample long-727-jobs
closed sample

saving() { # SAVES SYNCS NAME TEST..: writes to the new file, and the call that waits until it is stored
  SAVES=$1 SYNCS=$2 shimmed "" "" "${@:3}"
}
for saves in "e4" "e11" "1 *" "e4 1 *" "e11 e4 100 *" "256 e5"; do
  saving "$saves" "" sample whole sample
done
saving "e11 e4 4096 *" "" long-727-jobs whole long-727-jobs
for saves in "e5" "e28" "0" "1 e5" "128 e28" "e4 90 e11 e28" "255 e5" "100 0"; do
  saving "$saves" "" sample undone sample
  saving "$saves" "" long-727-jobs undone long-727-jobs
done
saving "65505 e28" "" long-727-jobs undone long-727-jobs
for syncs in "e5" "e28"; do
  saving "" "$syncs" sample undone sample
  saving "100 1 *" "$syncs" long-727-jobs undone long-727-jobs
done
# a disk that is full is no fault of an input that makes no file
saving "e28" "e5" empty whole empty
# a limit of 1 KiB a file: the system itself fails half way
(ulimit -f 1 && trap '' XFSZ && run <"$cases/labs.in" >"$work/out" 2>"$work/err")
judge "a limit of the new file" undone labs
# a name that is not UTF-8 makes no file
odd=$work/$(printf 'n\377')
"$program" "$odd" <"$cases/sample.in" >"$work/out" 2>"$work/err"
judge "a name that is not UTF-8" undone sample
judge "no file of a name that is not UTF-8" [ ! -e "$odd" ]

name=faults
verdict
