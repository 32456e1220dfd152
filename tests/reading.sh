#!/usr/bin/env bash
# The reading list of docs/THEOREMS.md is what the exported contracts and the listed theorems reach; all of it stands in specs/.
cd "$(dirname "$0")/.." || exit 2
python3 tools/reading_list.py --check || { echo "reading: the reading list does not hold"; exit 1; }
echo "reading: the list holds"
