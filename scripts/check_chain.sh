#!/usr/bin/env bash
# Computes the chain of the three entries in crates/format_tests/src/chains.rt with the system's sha256sum, and compares it
# with the hashes that stand there. Skipped where sha256sum is missing. It rests on nothing of this repository's code.
set -eu
cd "$(dirname "$0")/.."
command -v sha256sum >/dev/null || { echo "check_chain: skipped, no sha256sum"; exit 0; }

# the hex of the SHA-256 of bytes given in hex
hash() { printf "$(printf '%s' "$1" | sed 's/../\\x&/g')" | sha256sum | cut -d ' ' -f 1; }

# the bytes of a constant of the test, in hex
constant() {
  awk -v name="const $1:" 'index($0, name) == 1 { on = 1 } on { print } on && /;$/ { exit }' crates/format_tests/src/chains.rt |
    grep -o '0x[0-9a-f]*' | sed 's/0x//' | tr -d '\n'
}

entries=$(constant ENTRIES)
top=$(printf '0%.0s' {1..64})
place=0
hashes=()
while [ $place -lt ${#entries} ]; do
  seq=${entries:place:16}
  kind=${entries:place + 16:2}
  length=$((16#${entries:place + 18:8} * 2))
  content=${entries:place + 26:length}
  top=$(hash "$top$seq$kind$(hash "$content")")
  hashes+=("$top")
  place=$((place + 26 + length))
done
[ ${#hashes[@]} -eq 3 ] || { echo "check_chain: ${#hashes[@]} entries"; exit 1; }
[ "${hashes[0]}" = "$(constant FIRST)" ] || { echo "check_chain: the first hash differs"; exit 1; }
[ "${hashes[2]}" = "$(constant LAST)" ] || { echo "check_chain: the last hash differs"; exit 1; }
echo "check_chain: three hashes agree"
