#!/bin/sh
# Steps a second of the replay of a C guest (SHA-256, bench/digest.c) through the program's `audit`, beside an interpreter in plain C
# (gcc -O2) on the same image: the best of five times each, and machine instructions a step where valgrind is there. The log is made
# of what the interpreter prints, and `audit` must accept it.
set -eu
cd "$(dirname "$0")/.."
program=${AVM:-crates/avm_cli/out/avm_cli}
[ -x "$program" ] || { echo "bench: build the program first: ./avm --help, then a run" >&2; exit 1; }
command -v riscv64-unknown-elf-gcc > /dev/null || { echo "replay: no riscv64-unknown-elf-gcc, skipped"; exit 0; }
folder=$(mktemp -d)
trap 'rm -rf "$folder"' EXIT
gcc -O2 -o "$folder/plain" bench/machine.c
riscv64-unknown-elf-gcc -std=c11 -march=rv32im -mabi=ilp32 -O2 -ffreestanding -fno-pic -ffixed-x4 -fno-tree-loop-distribute-patterns -Iguest \
    -nostdlib -static -s -Wl,--build-id=none,--gc-sections,--no-relax,-z,max-page-size=16,--defsym=avm_pages=16 -T guest/avm.ld \
    -o "$folder/digest.elf" guest/start.S guest/avm.c bench/digest.c -lgcc
riscv64-unknown-elf-objcopy -O binary "$folder/digest.elf" "$folder/digest.bin"
exec python3 bench/replay.py "$program" "$folder"
