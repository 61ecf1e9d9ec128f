#!/bin/bash
# Keys of heights 5 and 10, signatures and their verification, all with w 8, beside the same in C (bench/lms.c), which hashes
# eight texts at once too, compiled for the same processor (x86-64-v2, vectors of 16 bytes) by clang where it is there, else by
# gcc (no part of the gate). Seconds are the processor's, the best of five in turn, so that little else on the machine counts.
# Both programs read the same lines, and their answers are compared. With `ways` the C program's other orders too.
# Usage: lms.sh [ways]
set -euo pipefail
cd "$(dirname "$0")/.."
folder=$(mktemp -d)
trap 'rm -rf "$folder"' EXIT
[ -x crates/lms_peer/out/lms_peer ] || (cd crates/lms_peer && rt run < stdin > "$folder/run") || { cat "$folder/run"; exit 1; }
compiler=$(command -v clang || command -v gcc)
"$compiler" -O2 -march=x86-64-v2 -o "$folder/c" bench/lms.c
file() { printf '41564d4b01%08x00000004000102030405060708090a0b0c0d0e0f%s' "$1" "$(printf '11%.0s' $(seq 32))"; }
for _ in 1 2 3 4 5 6 7 8; do echo "key $(file 5)"; done > "$folder/make5"
echo "key $(file 6)" > "$folder/make10"
echo "key $(file 5)" > "$folder/none"
{ cat "$folder/none"; for i in $(seq 512); do printf 'sign %d %08x\n' $((i % 32)) "$i"; done; } > "$folder/sign"
public=$("$folder/c" < "$folder/none")
"$folder/c" < "$folder/sign" | tail -n +2 | awk -v key="$public" '{ printf "verify %s %08x %s\n", key, NR, $1 }' > "$folder/verify"
ways=avm\ c
[ "${1:-}" = ways ] && ways="$ways groups plain single"
run() {
    case $1 in
        avm) crates/lms_peer/out/lms_peer ;;
        c) "$folder/c" ;;
        *) "$folder/c" "$1" ;;
    esac
}
TIMEFORMAT=%U
for _ in 1 2 3 4 5; do
    for job in make5 make10 none sign verify; do
        for way in $ways; do
            { time run "$way" < "$folder/$job" > "$folder/out.$job.$way"; } 2>> "$folder/$job.$way"
            cmp "$folder/out.$job.c" "$folder/out.$job.$way" 2> /dev/null || [ "$way" = avm ]
        done
        cmp "$folder/out.$job.c" "$folder/out.$job.avm"
    done
done
if grep -q invalid "$folder/out.verify.avm"; then exit 1; fi
best() { sort -n "$folder/$1.$2" | head -n 1; }
for way in $ways; do
    echo "$way $(best make5 "$way") $(best make10 "$way") $(best none "$way") $(best sign "$way") $(best verify "$way")"
done | awk '{
    name[NR] = $1; five[NR] = 1000 * $2 / 8; ten[NR] = $3; sign[NR] = 1000 * ($5 - $4) / 512; verify[NR] = 1000 * $6 / 512
} END {
    for (i = 1; i <= NR; i++)
        printf "%s: a key of height 5 %.1f ms, of height 10 %.3f s, a signature %.2f ms, verified %.2f ms\n",
            name[i], five[i], ten[i], sign[i], verify[i]
    printf "avm / C: %.2f, %.2f, %.2f, %.2f\n", five[1] / five[2], ten[1] / ten[2], sign[1] / sign[2], verify[1] / verify[2]
}'
