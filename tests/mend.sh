#!/usr/bin/env bash
# Runs the program `mend` on every tests/mend/NAME.in, without an argument and with the name of a new file: its standard output must be NAME.out, its
# standard error empty and its exit status 0, and the new file NAME.new, or not there where the input is refused. Then names that no file can be
# made by. The program is target/bin/mend, or the path in MEND.
set -u
cd "$(dirname "$0")/.." || exit 2
name=mend
. tools/judge.sh
program=$(program_at "${MEND:-target/bin/mend}") || exit 1
new=$work/new

mend() { # INPUT ARGUMENT..
  "$program" "${@:2}" <"$1" >"$work/out" 2>"$work/err"
  status=$?
}

printed() { # OUTPUT: the right text, and nothing said
  [ "$status" -eq 0 ] && [ ! -s "$work/err" ] && cmp -s "$work/out" "$1"
}

made() { # NEW: the right file, or none where nothing is stored
  if [ -e "$1" ]; then cmp -s "$new" "$1"; else [ ! -e "$new" ]; fi
}

as_stored() { # INPUT
  local stored=${1%.in}
  mend "$1"
  printed "$stored.out" || { echo "status $status"; diff "$stored.out" "$work/out" | head -n 6; return 1; }
  [ ! -e "$new" ] || return 1
  mend "$1" "$new"
  printed "$stored.out" && made "$stored.new"
}

for input in tests/mend/*.in; do
  [ -e "$input" ] || continue
  judge "$(basename "$input" .in)" as_stored "$input"
  rm -f "$new"
done

# Names that no new file can have: the text is whole, and one line says that the file was not made.
sample=tests/mend/sample.in
told() { # ERROR
  [ "$status" -eq 0 ] && cmp -s "$work/out" "${sample%.in}.out" && [ "$(wc -l <"$work/err")" -eq 1 ] &&
    grep -q "^mend: the new file: $1" "$work/err"
}
kept() { # FILE CONTENT: told that a file is there, which is as it was
  told "File exists" && [ "$(cat "$1")" = "$2" ]
}
echo "a lab's own file" >"$work/there"
mend "$sample" "$work/there"
judge "the name of a file" kept "$work/there" "a lab's own file"
: >"$work/nothing"
mend "$sample" "$work/nothing"
judge "the name of an empty file" kept "$work/nothing" ""
mkdir "$work/folder"
mend "$sample" "$work/folder"
judge "the name of a folder" told "File exists"
# a link is a name that is taken, also where it leads to nothing
ln -s "$work/target" "$work/link"
mend "$sample" "$work/link"
judge "the name of a link" told "File exists"
judge "a link that is not followed" [ ! -e "$work/target" ]
mend "$sample" "$work/none/new"
judge "a folder that is not there" told "No such file"
mend "$sample" "$work/there/new"
judge "a file for a folder" told "Not a directory"
mend "$sample" ""
judge "an empty name" told ""
mend "$sample" "$work/$(printf '%0300d' 0)"
judge "a name of 300 bytes" told "File name too long"
for length in 4095 4096 5000; do
  mend "$sample" "$(printf "%0${length}d" 0)"
  judge "a name of $length bytes" told ""
done
cp "$sample" "$work/own"
mend "$work/own" "$work/own"
judge "the input itself" told "File exists"
judge "the input as it was" cmp -s "$work/own" "$sample"

# A refused input makes no file, whatever the name is. A name without a folder is one in the program's own.
mend tests/mend/empty.in "$work/none/new"
judge "a refused input and a name that cannot be made" printed tests/mend/empty.out
absolute=$(realpath "$program")
(cd "$work" && exec "$absolute" plain) <"$sample" >"$work/out" 2>"$work/err"
status=$?
judge "a name without a folder" printed tests/mend/sample.out
judge "the file of a name without a folder" cmp -s "$work/plain" tests/mend/sample.new

# More than one argument: the input is not looked at, and no file is made.
usage() {
  [ "$status" -eq 0 ] && [ ! -s "$work/out" ] && [ "$(wc -l <"$work/err")" -eq 1 ] && grep -q "^mend: " "$work/err" && [ ! -e "$new" ] &&
    [ ! -e "$work/second" ]
}
mend "$sample" "$new" "$work/second"
judge "two arguments" usage
"$program" "$new" "$work/second" <&- >"$work/out" 2>"$work/err"
status=$?
judge "two arguments and no input" usage
mend "$sample" "$new" "$work/second" ""
judge "three arguments" usage

verdict
