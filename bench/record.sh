#!/bin/sh
# Steps a second of a recording beside `audit` of the same run, and commits a second beside the same four calls on a plain file (no part
# of the gate). Seconds of steps are the processor's, those of commits the clock's, each the best of five.
# Usage: record.sh
set -eu
cd "$(dirname "$0")/.."
program=${AVM:-crates/avm_cli/out/avm_cli}
[ -x "$program" ] || { echo "bench: build the program first: ./avm --help, then a run" >&2; exit 1; }
folder=$(mktemp -d "${TMPDIR:-/tmp}/record.XXXXXX")
trap 'rm -rf "$folder"' EXIT
exec python3 bench/record.py "$program" "$folder"
