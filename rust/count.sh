#!/bin/sh
# Instructions of one call, by valgrind, for each row of the benchmark: for machines whose times are too noisy to compare.
# count.sh [TEXT]: only rows whose title contains the text. Each side runs all inputs of a row three times and once; the difference is
# two runs without the start of the program.
set -eu
# valgrind counts a string instruction once a byte, so that clearing an array would count as thousands: let the C library do without them.
export GLIBC_TUNABLES=glibc.cpu.x86_rep_stosb_threshold=100000000:glibc.cpu.x86_rep_movsb_threshold=100000000
cd "$(dirname "$0")"
cargo build --quiet --release --offline -p bench
bench=${CARGO_TARGET_DIR:-target}/release/bench

count() {
    valgrind --tool=cachegrind --cache-sim=no --cachegrind-out-file=/dev/null "$bench" --only "$1" --side "$2" --calls "$3" 2>&1 |
        sed -n 's/.*I *refs: *//p' | tr -d ,
}

per_call() {
    echo $((($(count "$1" "$2" 3) - $(count "$1" "$2" 1)) / 2 / $3))
}

echo '| row | library | plain | ratio |'
echo '|---|---|---|---|'
"$bench" --titles "${1-}" | while IFS='|' read -r items title; do
    library=$(per_call "$title" library "$items")
    plain=$(per_call "$title" plain "$items")
    echo "| $title | $library | $plain | $(echo "$library $plain" | awk '{ printf "%.2f", $1 / $2 }') |"
done
