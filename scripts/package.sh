#!/bin/sh
# Makes a Debian package and a tarball of the release, unpacks each into a folder of its own, and runs it there once. Nothing is
# installed on this machine. Skipped where there is no release; the package is skipped where dpkg-deb is missing.
# Usage: scripts/package.sh [FOLDER]: both files are kept in FOLDER, or else only tried.
set -eu
cd "$(dirname "$0")/.."
[ -x release/avm ] && [ -f release/RELEASE ] || { echo "package: no release is here, skipped"; exit 0; }
version=$(sed -n 's/^version //p' release/RELEASE)
room=$(mktemp -d)
trap 'rm -rf "$room"' EXIT
SOURCE_DATE_EPOCH=$(git log -1 --format=%ct 2>/dev/null || echo 0)
export SOURCE_DATE_EPOCH

# try NAME PROGRAM: the main job on a kept log, by an unpacked front door.
try() {
    (cd "$room" && "$2" --version >/dev/null)
    got=$(cd "$room" && "$2" audit --segment "$OLDPWD/examples/hello.seg") || true
    [ "$got" = 'accepted 1 to 3 covered 0' ] || { echo "package: $1 answered '$got'"; exit 1; }
    echo "package: $1, unpacked, ran"
}

tarball=avm-$version-linux-x86_64.tar.gz
top=$room/avm-$version
mkdir -p "$top/scripts" "$top/examples" "$top/guest"
cp -r avm README.md release man completions docs "$top"
cp -r scripts/model scripts/model_avm.py "$top/scripts"
cp -r examples/*.sh examples/*.py examples/README.md examples/tour examples/hello.* examples/cheat.seg examples/cheat.auths \
    examples/owner.pub "$top/examples"
cp -r guest/* "$top/guest"
find "$top" -name __pycache__ -type d -prune -exec rm -rf {} +
chmod -R u=rwX,go=rX "$top"
(cd "$room" && tar --sort=name --mtime="@$SOURCE_DATE_EPOCH" --owner=0 --group=0 --numeric-owner -cf - "avm-$version" | gzip -n9) \
    > "$room/$tarball"
mkdir "$room/tar"
tar -xzf "$room/$tarball" -C "$room/tar"
try "$tarball" "$room/tar/avm-$version/avm"

deb=avm_${version}_amd64.deb
if command -v dpkg-deb >/dev/null 2>&1; then
    root=$room/root
    mkdir -p "$root/DEBIAN" "$root/usr/bin" "$root/usr/lib/avm" "$root/usr/share/man/man1" "$root/usr/share/doc/avm" \
        "$root/usr/share/bash-completion/completions" "$root/usr/share/zsh/vendor-completions"
    cp avm "$root/usr/bin/avm"
    cp release/* "$root/usr/lib/avm"
    gzip -n9 < man/avm.1 > "$root/usr/share/man/man1/avm.1.gz"
    cp completions/avm.bash "$root/usr/share/bash-completion/completions/avm"
    cp completions/_avm "$root/usr/share/zsh/vendor-completions/_avm"
    cp -r README.md docs/*.md "$top/examples" "$top/guest" "$top/scripts" "$root/usr/share/doc/avm"
    cat > "$root/DEBIAN/control" <<END
Package: avm
Version: $version
Architecture: amd64
Maintainer: avm <avm@localhost>
Depends: libc6, coreutils
Section: utils
Priority: optional
Description: accountable virtual machine
 Judges signed logs of RV32IM guests by running them again, writes evidence of
 what doesn't replay, and checks such evidence.
END
    chmod -R u=rwX,go=rX "$root"
    dpkg-deb --root-owner-group --build "$root" "$room/$deb" >/dev/null
    mkdir "$room/deb"
    dpkg-deb -x "$room/$deb" "$room/deb"
    try "$deb" "$room/deb/usr/bin/avm"
else
    echo "package: no dpkg-deb, so no package"
fi
if [ $# -gt 0 ]; then
    mkdir -p "$1"
    cp "$room/$tarball" "$1"
    [ ! -f "$room/$deb" ] || cp "$room/$deb" "$1"
fi
