#!/bin/sh
# Tries the front door in a folder of its own, with the built program as its release: the version, the main job, a private key
# for its owner alone, a key file that is there, and a release that was changed. Skipped where the program isn't built.
set -eu
cd "$(dirname "$0")/.."
program=${1:-crates/avm_cli/out/avm_cli}
[ -x "$program" ] || { echo "front door: the program isn't built here, skipped (./avm builds it)"; exit 0; }
here=$(pwd)
version=$(sed -n 's/^version=//p' avm)
room=$(mktemp -d)
trap 'rm -rf "$room"' EXIT
mkdir "$room/release"
cp avm "$room"
cp "$program" "$room/release/avm"
sum=$(sha256sum "$room/release/avm" | cut -d ' ' -f 1)
printf 'version none\nkit none\nsources none\nprogram avm %s\n' "$sum" > "$room/release/RELEASE"
cd "$room"
# the toolchain isn't to be found
PATH=/usr/bin:/bin
umask 022

# expect STATUS LINE WORDS ..: what the front door answers, on standard output or standard error.
expect() {
    want=$1 line=$2 status=0
    shift 2
    ./avm "$@" > said 2>&1 || status=$?
    if [ "$status" != "$want" ] || [ "$(head -n 1 said)" != "$line" ]; then
        printf 'front door: %s: expected status %s and "%s", got %s and:\n' "$*" "$want" "$line" "$status"
        cat said
        exit 1
    fi
}

make_key() {
    expect "$1" "$2" keygen --height 5 --w 8 --id 000102030405060708090a0b0c0d0e0f \
        --seed 1111111111111111111111111111111111111111111111111111111111111111 --key my.key --public my.pub
}

expect 0 'usage: ./avm COMMAND OPTION VALUE ..'
expect 0 "avm $version" --version
expect 0 'accepted 1 to 3 covered 0' audit --segment "$here/examples/hello.seg"
expect 3 'refused words' keygen --key my.key
make_key 0 'key made'
[ "$(stat -c %a my.key my.pub | tr '\n' ' ')" = '600 644 ' ] || { echo "front door: the key files' modes"; ls -l my.*; exit 1; }
cp my.key before
make_key 3 "avm: my.key is there already, and keygen isn't run over a key file"
cmp before my.key
echo >> release/avm
expect 4 "avm: $room/release/avm isn't the program that $room/release/RELEASE names, so it isn't run" list --store x
echo "front door: as expected"
