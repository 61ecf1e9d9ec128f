#!/bin/sh
# Builds the program of bench/machine in a folder that is there, and prints the path of the program.
# Usage: build_machine.sh FOLDER
set -eu
exec "$(dirname "$0")/build.sh" "$1" machine lane_kern avm_num avm_model circular_buffer rv32_decode rv32_core rv32_mem inst_cache guest_dev \
    guest_machine
