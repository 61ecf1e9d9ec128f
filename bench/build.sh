#!/bin/sh
# Builds the program of bench/NAME in a copy of the crates that it stands on, in a folder that is there, and prints the path of
# the program. The crates are this repository's or the kit's, bottom up.
# Usage: build.sh FOLDER NAME CRATE..
set -eu
folder=$(cd "$1" && pwd)
name=$2
shift 2
cd "$(dirname "$0")/.."
here="$folder/crates/bench_$name"
mkdir -p "$here/src" "$here/specs"
for crate; do
    [ -d "crates/$crate" ] || continue
    cp -r "crates/$crate" "$folder/crates/"
    grep "^$crate:" crates.txt >> "$folder/crates.txt"
done
echo "bench_$name: $*" >> "$folder/crates.txt"
cp "bench/$name/main.rt.txt" "$here/src/main.rt"
for spec in "bench/$name"/*.antt.txt; do
    [ -e "$spec" ] || continue
    word=$(basename "$spec" .antt.txt)
    cp "$spec" "$here/specs/$word.antt"
    echo "pub mod $word" >> "$here/specs/Lib.antt"
done
(cd "$folder" && git init -q && cd "$here" && rt run < /dev/null > "$folder/log" 2>&1) || { tail "$folder/log" >&2; exit 1; }
echo "$here/out/bench_$name"
