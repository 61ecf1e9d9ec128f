#!/bin/sh
# Holds the manual page and the completions against the front door's usage (commands, options, what isn't built) and the page's lines
# against docs/FORMATS.md. Skipped where Python is missing.
set -eu
cd "$(dirname "$0")/.."
command -v python3 >/dev/null 2>&1 || { echo "man: no python3, skipped"; exit 0; }
./avm --help | PYTHONDONTWRITEBYTECODE=1 python3 scripts/check_man.py
bash -n completions/avm.bash
! command -v zsh >/dev/null 2>&1 || zsh -n completions/_avm
