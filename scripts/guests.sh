#!/bin/sh
# Runs the guests of guest/ on the independent model and holds their logs against the kept ones; where the program is built, it
# audits them too; where the cross compiler (Debian's gcc-riscv64-unknown-elf) is present, it builds them anew and holds what
# they print. Skipped where Python is missing.
set -eu
cd "$(dirname "$0")/.."
command -v python3 >/dev/null 2>&1 || { echo "guests: no python3, skipped"; exit 0; }
set --
program=crates/avm_cli/out/avm_cli
[ ! -x "$program" ] || set -- "$@" --program "$program"
if command -v riscv64-unknown-elf-gcc >/dev/null 2>&1 && command -v make >/dev/null 2>&1; then
    folder=$(mktemp -d)
    trap 'rm -rf "$folder"' EXIT
    cp guest/*.c guest/*.h guest/*.S guest/*.ld guest/Makefile "$folder"
    mkdir "$folder/images"
    make -s -C "$folder"
    set -- "$@" --built "$folder/images"
fi
PYTHONDONTWRITEBYTECODE=1 python3 scripts/guests.py "$@"
