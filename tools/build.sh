#!/usr/bin/env bash
# build.sh NAME..: proves and builds programs to target/bin/NAME, and the crate that crates.txt calls a static library to target/staticlib/libNAME.a,
# each where a source is newer than what stands there. `rt run` builds a program and then runs it, here with nothing on standard input. What rt said
# of one that is not built is told, and stays in target/NAME.log.
set -u
cd "$(dirname "$0")/.." || exit 2
for name in "$@"; do
  command=run made=$name to=target/bin/$name
  if grep -q "^$name\b.*\bstaticlib\b.*:" crates.txt; then
    command=lib made=lib$name.a to=target/staticlib/lib$name.a
  fi
  newer=$(find crates crates.txt -newer "$to" -type f -not -path 'crates/*/out/*' -not -path '*/must-fail/*' -print -quit 2>&1)
  [ -n "$newer" ] || continue
  mkdir -p "$(dirname "$to")"
  began=$(mktemp)
  if ! (cd "crates/$name" && rt $command </dev/null) >"target/$name.log" 2>&1 || ! cp "crates/$name/out/$made" "$to.new"; then
    tail -n 20 "target/$name.log"
    echo "build: $name is not built"
    rm -f "$began"
    exit 1
  fi
  # as old as when its check began, since a source may have changed meanwhile
  touch -r "$began" "$to.new" && mv "$to.new" "$to"
  rm -f "$began"
done
