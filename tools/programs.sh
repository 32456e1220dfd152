# Sourced, from the project's folder, by what runs the programs: program_at. `name` is the test's.
# shellcheck shell=bash disable=SC2154
program_at() { # PATH: the path, where a program stands there; one of target/bin is built first if a source is newer
  if [[ $1 == target/bin/* ]]; then
    bash tools/build.sh "${1#target/bin/}" >&2 || return 1
  fi
  if [ ! -x "$1" ] || [ -d "$1" ]; then
    echo "$name: no program at $1" >&2
    return 1
  fi
  echo "$1"
}
