#!/usr/bin/env bash
# Each promise of docs/THEOREMS.md has a link to what gives it, and the documents' links lead somewhere.
cd "$(dirname "$0")/.." || exit 2
python3 tools/links.py --check || { echo "links: a link does not hold"; exit 1; }
echo "links: the links hold"
