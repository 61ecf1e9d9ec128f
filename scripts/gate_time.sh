#!/bin/sh
# Where a gate's time goes: a table of processor and wall minutes a crate, for its proof, its tests and its edits.
# Usage: rt ci | scripts/gate_time.sh         passes the gate's lines on, watches meanwhile what its provers use, and prints the
#                                             table at the end
#        scripts/gate_time.sh FILE            prints the table of a gate's saved output, or, where that has none, what the gate
#                                             said of each crate, without minutes
# It never changes a status: without Python it passes the lines on and no more.
set -eu
if ! command -v python3 >/dev/null 2>&1; then
    exec cat "$@"
fi
PYTHONDONTWRITEBYTECODE=1 exec python3 "$(dirname "$0")/gate_time.py" "$@"
