#!/bin/sh
# Times the program's `audit` (no part of the gate): replay of ten million steps beside `Machine::step_into` alone, 12,557
# authenticators beside plain calls of `verify`, short entries in 64 MiB beside hashing them and what their chain hashes, and the
# longest files.
set -eu
cd "$(dirname "$0")/.."
[ -x crates/avm_cli/out/avm_cli ] || { echo "bench: build the program first: ./avm --help, then a run" >&2; exit 1; }
[ -x crates/lms_peer/out/lms_peer ] || (cd crates/lms_peer && rt run < stdin > /dev/null)
folder=$(mktemp -d)
trap 'rm -rf "$folder"' EXIT
mkdir "$folder/machine" "$folder/hash"
machine=$(bench/build_machine.sh "$folder/machine")
hash=$(bench/build.sh "$folder/hash" hash lane_kern sha2 avm_num avm_model avm_hash rv32_mem page_tree)
python3 bench/audit.py crates/avm_cli/out/avm_cli crates/lms_peer/out/lms_peer "$machine" "$hash" out/bench "$@"
