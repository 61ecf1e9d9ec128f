#!/bin/sh
# Holds the independent model against worked examples, and then what the program, or the one that is named, prints and writes
# against the model. Skipped where Python is missing; the second part also where the program isn't built (the gate and ./avm
# build it).
set -eu
cd "$(dirname "$0")/.."
program=${1:-crates/avm_cli/out/avm_cli}
command -v python3 >/dev/null 2>&1 || { echo "compare: no python3, skipped"; exit 0; }
export PYTHONDONTWRITEBYTECODE=1
python3 scripts/check_model.py
[ -x "$program" ] || { echo "compare: the program isn't built here, skipped (./avm builds it)"; exit 0; }
python3 scripts/compare.py "$program" out/compare
python3 scripts/compare_random.py "$program" out/compare
python3 scripts/compare_commands.py "$program" out/compare
python3 scripts/compare_stories.py "$program" out/compare
python3 scripts/compare_stores.py "$program" out/compare
