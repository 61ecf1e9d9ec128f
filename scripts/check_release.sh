#!/bin/sh
# Holds the released program against the one that was just built: byte for byte where it was built by the same kit, else by running
# it over the comparison with the independent model, which the built one has passed. Skipped where there is no release, or no
# built program; a release of other sources isn't run by the front door, and is only told.
set -eu
cd "$(dirname "$0")/.."
program=crates/avm_cli/out/avm_cli
[ -f release/RELEASE ] || { echo "release: none is here, skipped"; exit 0; }
[ -x "$program" ] || { echo "release: the program isn't built here, skipped (./avm builds it)"; exit 0; }
said() {
    sed -n "s/^$1 //p" release/RELEASE
}
for name in avm avm.x86-64-v3; do
    [ -f "release/$name" ] || continue
    [ "$(sha256sum "release/$name" | cut -d ' ' -f 1)" = "$(said "program $name")" ] || {
        echo "release: release/$name isn't the program that release/RELEASE names"
        exit 1
    }
done
[ "$(scripts/sources.sh)" = "$(said sources)" ] || {
    echo "release: it is of other sources, so the front door doesn't run it (scripts/release.sh makes a new one)"
    exit 0
}
if [ "$(rt version 2>/dev/null)" = "$(said kit)" ]; then
    cmp "$program" release/avm || { echo "release: it isn't what these sources and this kit give"; exit 1; }
    echo "release: byte for byte what was just built"
else
    echo "release: built by another kit ($(said kit)), so it is run over the comparison"
    scripts/compare.sh release/avm
fi
if [ -f release/avm.x86-64-v3 ] && grep -qw avx2 /proc/cpuinfo; then
    scripts/compare.sh release/avm.x86-64-v3
fi
