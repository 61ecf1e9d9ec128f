#!/bin/sh
# Builds scripts/emulator.c by the stock cross compiler twice, lets an emulator of RISC-V programs (Debian's qemu-user) run the one,
# and audits a segment of the other whose outputs are the text that the emulator printed. Skipped where the compiler (Debian's
# gcc-riscv64-unknown-elf), the emulator, Python or the built program is missing.
set -eu
cd "$(dirname "$0")/.."
program=crates/avm_cli/out/avm_cli
for need in python3 riscv64-unknown-elf-gcc qemu-riscv32; do
    command -v "$need" >/dev/null 2>&1 || { echo "emulator: no $need, skipped"; exit 0; }
done
[ -x "$program" ] || { echo "emulator: the program isn't built here, skipped (./avm builds it)"; exit 0; }
folder=$(mktemp -d)
trap 'rm -rf "$folder"' EXIT
build() {
    riscv64-unknown-elf-gcc -march=rv32im -mabi=ilp32 -O1 -ffreestanding -fno-builtin -nostdlib -static -Wl,--build-id=none \
        -Wl,--no-relax "$@" scripts/emulator.c
}
build -DLINUX -o "$folder/linux.elf"
build -T scripts/guest.ld -o "$folder/guest.elf"
qemu-riscv32 "$folder/linux.elf" > "$folder/printed"
PYTHONDONTWRITEBYTECODE=1 python3 scripts/emulator.py "$program" "$folder"
