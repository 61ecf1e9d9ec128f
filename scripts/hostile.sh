#!/bin/sh
# Every prefix of a segment and every byte of evidence raised; then every command on files with drawn bytes changed, inserted,
# removed and cut, with lines, statuses and files held against the independent model. Usage: hostile.sh [CASES [SEED]]; 2,000 cases
# and a drawn seed, which is printed. Skipped where the program isn't built or Python is missing.
set -eu
cd "$(dirname "$0")/.."
program=crates/avm_cli/out/avm_cli
command -v python3 >/dev/null 2>&1 || { echo "hostile: no python3, skipped"; exit 0; }
[ -x "$program" ] || { echo "hostile: the program isn't built here, skipped (./avm builds it)"; exit 0; }
seed=${2:-$(date +%N | sed 's/^0*//;s/^$/1/')}
PYTHONDONTWRITEBYTECODE=1
export PYTHONDONTWRITEBYTECODE
python3 scripts/every_byte.py "$program" out/every_byte
python3 scripts/hostile.py "$program" out/hostile "$seed" "${1:-2000}"
