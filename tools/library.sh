# shellcheck shell=bash disable=SC2154
# For the tests to source, from the project's folder, after setting `name`: a folder for their work, `fail`, and the boundary as a static library in
# YIKES_LIB_DIR. A library that is newer than the sources is not built again, and a folder that is named by the caller is taken as it is.
work=$(mktemp -d) || exit 2
trap 'rm -rf "$work"' EXIT
fail() {
  echo "$name: $1"
  [ -z "${2:-}" ] || tail -n 20 "$2"
  exit 1
}

if [ -z "${YIKES_LIB_DIR:-}" ]; then
  export YIKES_LIB_DIR=$PWD/target/staticlib
  bash tools/build.sh boundary >"$work/log" 2>&1 || fail "the static library is not built" "$work/log"
fi
export CARGO_TARGET_DIR=${CARGO_TARGET_DIR:-$PWD/target/rust}
