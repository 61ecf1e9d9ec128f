#!/bin/sh
# Ends the program as built in each of its writes and syncs in turn, and lets each of them fail once; drops, keeps or tears the
# writes since the last sync on a copy; and holds what goes on there against the independent model. Usage: crash.sh [CASES [SEED]];
# 200 cases and a drawn seed, which is printed; 0 takes every moment. Skipped where the program isn't built, or strace or Python is
# missing.
set -eu
cd "$(dirname "$0")/.."
program=crates/avm_cli/out/avm_cli
for tool in python3 strace; do
    command -v $tool >/dev/null 2>&1 || { echo "crash: no $tool, skipped"; exit 0; }
done
[ -x "$program" ] || { echo "crash: the program isn't built here, skipped (./avm builds it)"; exit 0; }
strace -o /dev/null true 2>/dev/null || { echo "crash: strace may not trace here, skipped"; exit 0; }
seed=${2:-$(date +%N | sed 's/^0*//;s/^$/1/')}
PYTHONDONTWRITEBYTECODE=1 python3 scripts/crash.py "$program" out/crash "$seed" "${1:-200}"
