#!/bin/sh
# Compares signatures of two levels with the HSS of Bouncy Castle (Debian's package libbcprov-java), the keys of RFC 8554's second test
# case among them. Usage: compare_hss.sh [PROGRAM]. Where Java, Python, the package or the program is missing it says so, and passes.
set -eu
cd "$(dirname "$0")/.."
program=${1:-crates/avm_cli/out/avm_cli}
jar=${BCPROV:-/usr/share/java/bcprov.jar}
for need in java javac python3; do
    command -v "$need" > /dev/null || { echo "HSS is not compared: there is no $need"; exit 0; }
done
[ -e "$jar" ] || { echo "HSS is not compared: there is no package libbcprov-java"; exit 0; }
[ -x "$program" ] || { echo "HSS is not compared: the program isn't built here (./avm builds it)"; exit 0; }
folder=$(mktemp -d)
trap 'rm -rf "$folder"' EXIT
javac -cp "$jar" -d "$folder" scripts/HssPeer.java
PYTHONDONTWRITEBYTECODE=1 python3 scripts/compare_hss.py "$program" "$folder/files" -- java -cp "$jar:$folder" HssPeer
