#!/usr/bin/env bash
# What README.md and docs/REFERENCE.md show is so: dump, listings, report, job text, tables and names, and the program in C compiles and prints what
# stands there.
set -u
cd "$(dirname "$0")/.." || exit 2
name=documents
. tools/library.sh
. tools/programs.sh
open=$(program_at "${OPEN:-target/bin/open}") || exit 1
mend=$(program_at "${MEND:-target/bin/mend}") || exit 1
jobtext=$(program_at "${JOBTEXT:-target/bin/jobtext}") || exit 1
python3 tools/documents.py "$open" "$mend" "$jobtext" >"$work/log" || fail "a document says something else" "$work/log"

python3 tools/documents.py --block program >"$work/program.c"
python3 tools/documents.py --block printed >"$work/printed"
${CC:-cc} -std=c99 -Wall -Wextra -Wpedantic -Werror -I include "$work/program.c" "$YIKES_LIB_DIR/libboundary.a" -o "$work/program" 2>"$work/log" ||
  fail "the program of docs/REFERENCE.md does not compile" "$work/log"
"$work/program" | cmp -s - "$work/printed" || fail "the program of docs/REFERENCE.md prints something else"
echo "documents: README.md and docs/REFERENCE.md show what is so"
