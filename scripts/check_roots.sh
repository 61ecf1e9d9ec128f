#!/bin/sh
# Compares the roots that the tests of page_tree expect with those of a program in Python. Skipped where there is none.
set -eu
cd "$(dirname "$0")/.."
if ! command -v python3 > /dev/null; then
    echo "check_roots: skipped, there is no python3"
    exit 0
fi
exec python3 scripts/check_roots.py
