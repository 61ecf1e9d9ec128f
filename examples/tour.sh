#!/bin/sh
# The tour: an operator runs a ledger, an auditor accepts it, the operator cheats, and is convicted. Each command is printed
# before it runs, and its line and status are held against what they have to be; the first that differs ends the tour with 1.
# Usage: tour.sh [FOLDER]. The files are made in FOLDER (empty or new) and kept there, or else in a folder that goes away.
# The program is ../avm (where that isn't there, avm on the path), or the one that the variable AVM names.
set -eu
here=$(CDPATH= cd -- "$(dirname -- "$0")" && pwd)
program=${AVM:-$here/../avm}
if [ -z "${AVM-}" ] && [ ! -x "$program" ]; then
    program=$(command -v avm) || { echo "tour: no program avm is here"; exit 1; }
fi
case $program in /*) ;; *) program=$(pwd)/$program ;; esac
if [ $# -gt 0 ]; then
    folder=$1
    mkdir -p "$folder"
    [ -z "$(ls -A "$folder")" ] || { echo "tour: $folder isn't empty"; exit 1; }
else
    folder=$(mktemp -d)
    trap 'rm -rf "$folder"' EXIT
fi
kept=$here/tour
skipped=0
stored=yes

# say SENTENCE: what the next command shows.
say() {
    printf '\n%s\n' "$1" | fold -s -w 100
}

# show WORDS ..: a command as one would type it.
show() {
    printf '$'
    for word in "$@"; do
        case $word in
            *' '*) printf " '%s'" "$word" ;;
            *) printf ' %s' "$word" ;;
        esac
    done
    printf '\n'
}

# avm LINES STATUS COMMAND ..: prints and runs a command. Where the program answers that it isn't built, or no run of the program
# is in the store, `built` becomes no.
avm() {
    want=$1 status=$2 got=0
    shift 2
    show avm "$@"
    built=yes
    case $stored:$1 in
        no:list | no:export | no:rebut | no:retain) built=no ;;
        *)
            (cd "$folder" && "$program" "$@") >"$folder/printed" 2>"$folder/complained" || got=$?
            cat "$folder/printed"
            case $got:$1:$(cat "$folder/printed") in
                "2:$1:refused notbuilt" | '3:view:refused words' | '3:retain:refused words') built=no ;;
            esac
            ;;
    esac
    if [ "$built" = no ]; then
        echo "(this program doesn't build \`$1\` yet, or no run is in the store: the tour goes on with the files that are kept for it)"
        skipped=$((skipped + 1))
        return 0
    fi
    [ "$got" = "$status" ] && [ "$(cat "$folder/printed")" = "$want" ] || {
        cat "$folder/complained"
        printf 'tour: expected status %s, got %s, and this output:\n%s\n' "$status" "$got" "$want"
        exit 1
    }
}

# script NAME WORDS ..: prints and runs a Python script of this folder. Without Python `built` becomes no.
script() {
    name=$1
    shift
    show "examples/$name" "$@"
    if ! command -v python3 >/dev/null 2>&1; then
        echo "(there is no python3: the tour goes on with the files that are kept for it)"
        built=no
        skipped=$((skipped + 1))
        return 0
    fi
    built=yes
    (cd "$folder" && PYTHONDONTWRITEBYTECODE=1 python3 "$here/$name" "$@") >"$folder/printed" 2>"$folder/complained" || {
        cat "$folder/complained"
        echo "tour: $name failed"
        exit 1
    }
    cut -c1-100 "$folder/printed"
}

# keep NAME ..: takes the kept files where the last command made none; else holds what it made against them.
keep() {
    for name in "$@"; do
        if [ "$built" = no ]; then
            cp "$kept/$name" "$folder/$name"
        else
            cmp "$kept/$name" "$folder/$name" || { echo "tour: $name isn't what was expected"; exit 1; }
        fi
    done
}

cp "$kept/ledger.img" "$kept/ledger.config" "$kept/morning.script" "$folder"

say "1. The operator makes a key. Its seed is a secret: this one is for the tour alone, take yours from /dev/urandom."
avm 'key made' 0 keygen --height 5 --w 8 --id 000102030405060708090a0b0c0d0e0f \
    --seed 1111111111111111111111111111111111111111111111111111111111111111 --key operator.key --public operator.pub
keep operator.pub

say "2. A store for the ledger (guest/ledger.c): the image, the machine's size and the peers stand in its first entry."
avm 'store made' 0 format --store ledger.store --key operator.key --config ledger.config --image ledger.img

say "3. The morning: the operator opens accounts, and Alice sends a payment that she signed. Every input and output is logged, \
what the guest says is released only once it is logged, and the end is sealed: a signed position."
avm 'recorded entries 13 dropped 0 leaves 3 waiting' 0 record --store ledger.store --key operator.key \
    --script morning.script --packets packets --console console.txt --auths ledger.auths
stored=$built

say "4. Alice checks the ledger's receipt under the operator's public key, acknowledges it, and orders more than she has."
if [ "$stored" = yes ]; then
    if command -v python3 >/dev/null 2>&1; then
        # her morning's order, so that her log goes on from it
        (cd "$folder" && PYTHONDONTWRITEBYTECODE=1 python3 "$here/customer.py" . order 5000 'pay alice bob 30' >/dev/null)
    fi
    script customer.py . answer 10000 packets operator.pub
    script customer.py . order 10000 'pay alice bob 500'
else
    echo "(her script is kept for the tour)"
fi
cp "$kept/evening.script" "$folder"

say "5. The evening: her script is run on the same store, and the operator closes the day."
avm 'recorded entries 20 dropped 0 leaves 6 halted' 0 record --store ledger.store --key operator.key \
    --script evening.script --packets packets --console console.txt --auths ledger.auths
keep ledger.auths console.txt
echo "$ cat console.txt"
cat "$folder/console.txt"

say "6. The journal, entry by entry: what came in, what went out, and at which instruction."
avm "$(cat "$kept/list.txt")" 0 list --store ledger.store

say "7. The log as a segment, which anyone may have."
avm 'exported 1 to 20' 0 export --store ledger.store --from 1 --to 20 --segment ledger.seg
keep ledger.seg

say "8. The auditor runs the guest again on the logged inputs, and holds it against every output and every signed position."
avm 'accepted 1 to 20 covered 20' 0 audit --segment ledger.seg --image ledger.img --key operator.pub --auths ledger.auths \
    --evidence none.evid

say "9. A segment may begin at any snapshot: this is what stands behind the one of entry 10."
avm 'exported 10 to 20' 0 export --store ledger.store --from 10 --to 20 --segment late.seg
keep late.seg
avm 'accepted 10 to 20 covered 20' 0 audit --segment late.seg --key operator.pub --auths ledger.auths --evidence none.evid

say "10. The guest's memory at any count: Alice's balance stands at 80000c24, and these are all the steps that changed it."
avm '1114 00000000 00000064
4167 00000064 00000046' 0 view --segment ledger.seg --changes 80000c24

say "11. The cheat: the operator writes a log in which the refused order was a payment to the house, and signs it with the same \
key. Hashes and signature are as they should be."
script cheat.py ledger.seg operator.key 31 cheat.seg cheat.auths 'refused: alice has 70' 'receipt 2 at 1700: alice pays house 70' \
    'alice 70, bob 80, house 0' 'alice 0, bob 80, house 70'
keep cheat.seg cheat.auths

say "12. The auditor: the ledger's program, on these inputs, doesn't say entry 16. The evidence is written."
avm 'fault replay 16' 1 audit --segment cheat.seg --key operator.pub --auths cheat.auths --evidence cheat.evid

say "13. A third party trusts neither of them, and needs the operator's public key and the evidence alone."
avm 'evidence stands' 0 check --key operator.pub --evidence cheat.evid

say "14. Evidence that was touched convicts nobody."
cp "$folder/cheat.evid" "$folder/touched.evid"
printf '\001' | dd of="$folder/touched.evid" bs=1 seek=20000 conv=notrunc 2>/dev/null
avm 'refused evidence' 2 check --key operator.pub --evidence touched.evid

say "15. Nor can one position be signed twice: the two signed logs together convict without any replay."
echo "$ cat ledger.auths cheat.auths > both.auths"
cat "$folder/ledger.auths" "$folder/cheat.auths" >"$folder/both.auths"
avm 'fault double 1 2' 1 audit --segment ledger.seg --key operator.pub --auths both.auths --evidence double.evid

say "16. Had a thief of the key signed that log, the operator would answer with the store: authenticator 0 of the evidence is none \
that it ever made, so the key was used outside of it."
avm 'forged 0' 0 rebut --store ledger.store --evidence cheat.evid

say "17. A store that has grown moves to another from a snapshot on; the old one is retired, and can't go on beside it."
avm 'retained 10' 0 retain --store ledger.store --into next.store --at 10
[ "$built" = no ] || avm 'refused retired' 2 record --store ledger.store --key operator.key --script evening.script \
    --packets packets --console console.txt --auths ledger.auths

if [ "$skipped" = 0 ]; then
    printf '\ntour: all as expected\n'
else
    printf '\ntour: all as expected, %s steps on kept files\n' "$skipped"
fi
