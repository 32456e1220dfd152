#!/usr/bin/env bash
# Each wrong answer of the must-fail edits is refused by itself, and because a fact no longer holds. Each edit is checked over what the check of
# its crate kept.
cd "$(dirname "$0")/.." || exit 2
python3 tools/edits.py
