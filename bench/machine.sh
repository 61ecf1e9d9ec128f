#!/bin/sh
# Instructions a second of `exec` over RAM and of `Machine::step_into`, beside an interpreter in plain C (gcc -O2), as ratios of
# one run, on two loops: ADDI, LW, ADD, SW, BNE and MUL, DIVU, XOR, SRLI, BLTU.
# Usage: machine.sh [INSTRUCTIONS]. The program is built in a copy of the repository; the best of five times counts.
set -eu
cd "$(dirname "$0")/.."
rounds=${1:-50000000}
folder=$(mktemp -d)
trap 'rm -rf "$folder"' EXIT
gcc -O2 -o "$folder/plain" bench/machine.c
program=$(bench/build_machine.sh "$folder")
time_of() { # a command: nanoseconds
    start=$(date +%s%N)
    "$@" > "$folder/last"
    echo $(($(date +%s%N) - start))
}
run_plain() { "$folder/plain" "$1" "$rounds"; }
run_avm() { echo "$1 $2 $rounds" | "$program"; }
for guest in moves products; do
    for _ in 1 2 3 4 5; do
        time_of run_plain $guest >> "$folder/plain.$guest"
        cp "$folder/last" "$folder/want"
        time_of run_avm exec $guest >> "$folder/exec.$guest"
        cmp "$folder/last" "$folder/want"
        time_of run_avm step $guest >> "$folder/step.$guest"
        cmp "$folder/last" "$folder/want"
    done
    for kind in plain exec step; do sort -n "$folder/$kind.$guest" | head -n 1; done | tr '\n' ' ' |
        awk -v rounds="$rounds" -v guest=$guest '{
            printf "%s: plain C %.1f, exec %.1f, step %.1f million a second; exec / plain %.2f, step / exec %.2f\n",
                guest, rounds * 1e3 / $1, rounds * 1e3 / $2, rounds * 1e3 / $3, $1 / $2, $2 / $3
        }'
done
