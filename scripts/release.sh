#!/bin/sh
# Makes release/ from the built program: the program, and RELEASE with the version, the kit's line, the hash of the sources that
# it was built of, and the program's SHA-256. The front door runs it where the sources' hash fits.
# Usage: scripts/release.sh [WIDE], with WIDE a program that was built for wider vectors (rt run --cpu x86-64-v3), which the
# front door takes where the processor has them.
set -eu
cd "$(dirname "$0")/.."
program=crates/avm_cli/out/avm_cli
[ -x "$program" ] || { echo "release: the program isn't built here (.ci/run or ./avm builds it)"; exit 1; }
newer=$(find crates.txt crates/*/src crates/*/specs crates/*/proofs -newer "$program" -type f -print 2>/dev/null | head -n 1)
[ -z "$newer" ] || { echo "release: $newer is newer than the program: build it first"; exit 1; }
kit=$(rt version)
mkdir -p release
rm -f release/avm release/avm.x86-64-v3
cp "$program" release/avm
[ $# -eq 0 ] || cp "$1" release/avm.x86-64-v3
chmod 755 release/avm*
{
    ./avm --version | sed -n '1s/^avm /version /p'
    echo "kit $kit"
    echo "sources $(scripts/sources.sh)"
    for name in avm avm.x86-64-v3; do
        [ ! -f "release/$name" ] || echo "program $name $(sha256sum "release/$name" | cut -d ' ' -f 1)"
    done
} > release/RELEASE
cat release/RELEASE
