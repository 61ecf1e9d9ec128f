#!/bin/sh
# Holds the program of several nodes against the independent model on drawn schedules. Usage: schedules.sh [SCHEDULES [SEED]]; 200
# schedules of a drawn seed, which is printed. Skipped where the program isn't built or Python is missing.
set -eu
cd "$(dirname "$0")/.."
program=crates/world_cli/out/world_cli
command -v python3 >/dev/null 2>&1 || { echo "schedules: no python3, skipped"; exit 0; }
[ -x "$program" ] || { echo "schedules: the program isn't built here, skipped"; exit 0; }
seed=${2:-$(date +%N | sed 's/^0*//;s/^$/1/')}
PYTHONDONTWRITEBYTECODE=1 python3 scripts/compare_world.py "$program" out/schedules "$seed" "${1:-200}"
