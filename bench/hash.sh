#!/bin/bash
# Eight hashes at once beside eight calls of sha2, leaves of pages alike, and trees of 16 MiB beside their leaves (no part of the
# gate). Seconds are the processor's, the best of five in turn, so that little else on the machine counts.
# Usage: hash.sh
set -euo pipefail
cd "$(dirname "$0")/.."
folder=$(mktemp -d)
trap 'rm -rf "$folder"' EXIT
program=$(bench/build.sh "$folder" hash lane_kern sha2 avm_num avm_model avm_hash rv32_mem page_tree)
TIMEFORMAT=%U
for _ in 1 2 3 4 5; do
    for word in eight single leaves singles fill build zeros; do
        { time "$program" "$word" > /dev/null; } 2>> "$folder/$word"
    done
done
best() { sort -n "$folder/$1" | head -n 1; }
awk -v eight="$(best eight)" -v single="$(best single)" -v leaves="$(best leaves)" -v singles="$(best singles)" \
    -v fill="$(best fill)" -v build="$(best build)" -v zeros="$(best zeros)" 'BEGIN {
    printf "55 bytes: eight at once %.2f million a second, by sha2 %.2f, ratio %.2f\n", 4 / eight, 4 / single, single / eight
    printf "pages: eight at once %.0f MB a second, by sha2 %.0f, ratio %.2f\n", 167.8 / leaves, 167.8 / singles, singles / leaves
    printf "a tree of 16 MiB: %.1f ms, its leaves alone %.1f ms, ratio %.2f; of zeros %.1f ms\n",
        100 * (build - fill), 100 * leaves, (build - fill) / leaves, 100 * zeros
}'
