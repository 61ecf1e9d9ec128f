#!/bin/sh
# Prints the hash of what the program is made of: its crate and those that it stands on by crates.txt, with their sources, specs and
# proofs, by name and content. It needs no version control.
set -eu
cd "$(dirname "$0")/.."
# per crate its line, and then what is reached from the program
awk '
    /^#/ || !NF { next }
    { name = $1; sub(/:$/, "", name); $1 = ""; below[name] = $0 }
    END {
        count = 1; reached[1] = "avm_cli"; met["avm_cli"] = 1
        for (n = 1; n <= count; n++) {
            print "crate " reached[n] ":" below[reached[n]]
            size = split(below[reached[n]], named, " ")
            for (k = 1; k <= size; k++)
                if (named[k] in below && !(named[k] in met)) { met[named[k]] = 1; reached[++count] = named[k] }
        }
    }' crates.txt | LC_ALL=C sort | {
    while read -r _ line; do
        echo "$line"
        name=${line%%:*}
        find "crates/$name/src" "crates/$name/specs" "crates/$name/proofs" -type f -print 2>/dev/null | LC_ALL=C sort | tr '\n' '\0' \
            | xargs -0 -r sha256sum
    done
} | sha256sum | cut -d ' ' -f 1
