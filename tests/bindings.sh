#!/usr/bin/env bash
# The header for C and the declarations of the Rust wrapper are those of the exported calls, by result, names, types and order of parameters.
cd "$(dirname "$0")/.." || exit 2
calls=$(python3 tools/bindings.py --check) || { echo "$calls"; echo "bindings: the declarations do not hold"; exit 1; }
echo "bindings: $calls are declared as they are exported"
