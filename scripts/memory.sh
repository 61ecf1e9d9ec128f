#!/bin/sh
# Runs every command of the program as built with each of its allocations failing in turn. Usage: memory.sh [MOST]: at most so many
# allocations of a command, evenly taken (60; 0 takes all). Skipped where the program isn't built, or a C compiler or Python is
# missing.
set -eu
cd "$(dirname "$0")/.."
program=crates/avm_cli/out/avm_cli
for tool in python3 gcc; do
    command -v $tool >/dev/null 2>&1 || { echo "memory: no $tool, skipped"; exit 0; }
done
[ -x "$program" ] || { echo "memory: the program isn't built here, skipped (./avm builds it)"; exit 0; }
mkdir -p out/memory
gcc -O1 -shared -fPIC -o out/memory/scarce.so scripts/scarce.c -ldl
PYTHONDONTWRITEBYTECODE=1 python3 scripts/memory.py "$program" out/memory/scarce.so out/memory/runs "${1:-60}"
