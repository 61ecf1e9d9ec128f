#!/bin/sh
# Builds a small C guest by the stock cross compiler, makes a segment of its run by the independent model, and audits it
# with the guest's executable as its image. Skipped where the compiler (Debian's gcc-riscv64-unknown-elf), Python or the
# built program is missing.
set -eu
cd "$(dirname "$0")/.."
program=crates/avm_cli/out/avm_cli
for need in python3 riscv64-unknown-elf-gcc; do
    command -v "$need" >/dev/null 2>&1 || { echo "guest: no $need, skipped"; exit 0; }
done
[ -x "$program" ] || { echo "guest: the program isn't built here, skipped (./avm builds it)"; exit 0; }
folder=$(mktemp -d)
trap 'rm -rf "$folder"' EXIT
riscv64-unknown-elf-gcc -march=rv32im -mabi=ilp32 -O1 -ffreestanding -fno-builtin -nostdlib -static -Wl,--build-id=none \
    -T scripts/guest.ld -o "$folder/guest.elf" scripts/guest.c
PYTHONDONTWRITEBYTECODE=1 python3 scripts/guest.py "$program" "$folder"
