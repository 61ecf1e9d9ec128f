"""Holds every command of the program against the model: the worked examples of check_model.py, what each command refuses and in
which order, and the words of a command line.

Usage: compare_commands.py PROGRAM FOLDER"""
import itertools
import sys

import both
import check_model
import compare
import model as m
from model import u32, u64

GIVEN = {
    "keygen": "--height 5 --w 1 --id 000102030405060708090a0b0c0d0e0f --seed %s --key new.key --public new.pub" % ("1f" * 32),
    "format": "--store fresh --key key --config config --image image",
    "record": "--store store --key key --script script --packets packets --console console --auths auths",
    "export": "--store store --from 1 --to 4 --segment out.seg",
    "audit": "--segment seg --image image --key pub --auths auths --evidence out.ev",
    "check": "--key pub --evidence ev",
    "rebut": "--store store --evidence ev",
    "list": "--store store",
    "retain": "--store store --into into --at 4",
    "roll": "--store fresh --key key",
    "enroll": "--store roll --key top --public pub --endorse out.end",
    "widen": "--endorse end --auths auths --out out.wide",
    "narrow": "--key toppub --auths wide --public out.pub --out out.auths",
    "view": "--segment seg --count 1 --from 80000000 --words 3",
}
WRITTEN = ("out.", "new.", "packets", "console", "into", "fresh")


def line(command):
    return [command] + GIVEN[command].split()


def worked_examples(c):
    """The examples of check_model.py, each command line run by both."""
    kept, checks = check_model.Folder.run, check_model.Checks()

    def run(folder, *words):
        c.bell = b'"machine"' in folder.files["config"]
        return c.both("worked example", words, folder.files)

    check_model.Folder.run = run
    for part in (check_model.small_words, check_model.first_segments, check_model.halts, check_model.snapshots,
                 check_model.drops_and_leaves, check_model.doubles, check_model.conversations, check_model.doorbell):
        part(checks)
    check_model.Folder.run, c.bell = kept, False
    c.failed += checks.failed


def good_files():
    """One file for each name in the words above: a store with a snapshot, a seal and a message, and what goes with it."""
    f = check_model.Folder(check_model.Checks(), compare.LOOP)
    f.files["key"] = check_model.private(check_model.SEED, ots=1)
    f.files["pub"] = m.read_private(f.files["key"]).public()
    f.files["top"] = check_model.private(b"\x31" * 32, ots=1)
    f.files["toppub"] = m.read_private(f.files["top"]).public()
    for words in ("format --store store --key key --config config --image image", "roll --store roll --key top",
                  "enroll --store roll --key top --public pub --endorse end"):
        f.run(*words.split())
    f.record("", "end 2000", "")
    f.run("widen", "--endorse", "end", "--auths", "auths", "--out", "wide")
    f.run("export", "--store", "store", "--from", "1", "--to", "4", "--segment", "seg")
    key = m.read_private(f.files["key"])
    start, before, state, frames = m.read_segment(f.files["seg"])
    late = m.put_segment(1, before, state, [frames[0], compare.recount(frames[1], 1023)] + frames[2:])
    h = m.chain_of(before, m.read_segment(late)[3])[4]
    auth = m.put_auth(4, h, key.sign(5, m.signed_text(4, h)))
    f.files["ev"] = m.verdict(late, key.public(), auth)[2]
    f.files["late"], f.files["late.auths"] = late, auth
    return f.files


def spoiled(data):
    """Ways in which a file may be wrong, by name."""
    ways = {"absent": None, "empty": b"", "cut": data[:-1], "longer": data + b"\0", "front": b"\0" + data[1:]}
    if len(data) > 8:
        ways["middle"] = data[:len(data) // 2] + bytes([data[len(data) // 2] ^ 1]) + data[len(data) // 2 + 1:]
    return ways


def stores(files):
    """Stores in every state that a command tells apart, by name."""
    store = files["store"]
    journal = m.journal_of(store)
    other = dict(files, key=check_model.private(b"\x77" * 32, ots=1), config=files["config"].replace(b"1024", b"1025"))
    other.pop("store")
    m.avm(line("format")[:2] + ["store"] + line("format")[3:], other)
    retired = dict(files)
    m.avm(line("retain"), retired)
    late = m.Journal(journal.key, 1, m.ZERO, 0, journal.head, journal.pages)
    late.add([(m.ENTRY, *(compare.recount(f, 1023) if f[1] == m.OUT else f)) for f in journal.frames()])
    uncommitted = m.Journal(journal.key, 1, m.ZERO, 0, journal.head, journal.pages)
    uncommitted.add([(m.ENTRY, 1, m.BOOT, u64(0) + m.ZERO)])
    spent = m.Journal(journal.key, 1, m.ZERO, 0, journal.head, journal.pages)
    spent.add(journal.records[0] + [(m.SEAL,)] * 32)
    first = m.put_header(journal)
    return {"absent": None, "empty": b"", "a byte": b"\0", "no magic": b"\0" + store[1:], "version 3": store[:4] + b"\3" + store[5:],
            "first gate closed": store[:len(first)] + b"\0" + store[len(first) + 1:],
            "no head": store.replace(journal.head, journal.head[:-1040] + b"\xff" * 4 + journal.head[-1036:], 1),
            "last gate open": store[:journal.gate] + b"\1" + store[journal.gate + 1:], "cut": store[:-1],
            "longer": store + b"\1\0\0\0\1\2\0", "another key": other["store"], "retired": retired["store"], "base": retired["into"],
            "doesn't replay": m.put_journal(late), "uncommitted": m.put_journal(uncommitted), "no leaf left": m.put_journal(spent),
            "two seals": store[:journal.gate] + b"\1\0\0\0\1\2\0", "two gates": store[:journal.gate] + b"\1\0\0\0\1\2\1"}


def orders(c, files):
    """For each command every pair of spoiled inputs, so that the first in the order has to be told."""
    per_store = stores(files)
    for command in GIVEN:
        if command == "keygen":
            continue
        words = line(command)
        inputs = [name for name in words[2::2] if name in files or name in ("store", "roll", "fresh", "into")]
        ways = {}
        for name in inputs:
            if name in ("store", "into"):
                ways[name] = per_store if name == "store" else {k: per_store[k] for k in ("absent", "empty", "a byte", "cut", "no magic", "base")}
            elif name == "fresh":
                ways[name] = {"absent": None, "empty": b"", "a byte": b"\0"}
            else:
                ways[name] = spoiled(files[name])
        for name in inputs:
            for way, data in ways[name].items():
                c.both("%s: %s of %s" % (command, way, name), words, changed(files, command, {name: data}))
        for one, two in itertools.combinations(inputs, 2):
            for (way, data), (other, more) in itertools.product(few(ways[one]), few(ways[two])):
                c.both("%s: %s of %s, %s of %s" % (command, way, one, other, two), words, changed(files, command, {one: data, two: more}))


def few(ways):
    """Every way of a store, and a file's absence and one spoiled byte."""
    return list(ways.items()) if len(ways) > 6 else [(k, ways[k]) for k in ("absent", "front", "a byte", "empty") if k in ways][:2]


def changed(files, command, new):
    """The files with these in place; None takes one away. What the command alone writes isn't there before."""
    kept = {k: v for k, v in files.items() if not k.startswith(WRITTEN)}
    kept.update({k: v for k, v in new.items() if v is not None})
    for k, v in new.items():
        if v is None:
            kept.pop(k, None)
    return {k: v for k, v in kept.items() if k in line(command) or k in new and v is not None}


def words_of(c, files):
    """Words that are jobs and words that aren't: options missing, twice, unknown, empty; numbers and digits at their bounds."""
    for command in GIVEN:
        words = line(command)
        c.both("words", [command], dict(files))
        c.both("words", words[:-1], dict(files))
        c.both("words", words + ["--extra", "1"], dict(files))
        c.both("words", words + words[1:3], dict(files))
        pairs = list(zip(words[1::2], words[2::2]))
        c.both("words", [command] + [w for pair in reversed(pairs) for w in pair], dict(files))
        for i, (option, value) in enumerate(pairs):
            rest = pairs[:i] + pairs[i + 1:]
            c.both("words", [command] + [w for pair in rest for w in pair], dict(files))
            for bad in ["", value + "x", "01", "+1", "18446744073709551616", "4294967296", "-1", "80000001", "8000000g", "FFFFFFFC", "0"]:
                if value.isalpha() and bad not in ("", "0"):
                    continue
                c.both("words", [command] + [w for pair in rest for w in pair] + [option, bad], dict(files))
            for other_option, other in pairs[:i]:
                if not (value.isdigit() or other.isdigit() or len(value) > 20):
                    c.both("words: equal names", [command] + [w for pair in rest for w in pair] + [option, other], dict(files))
    for words in ([], ["list"], ["List", "--store", "store"], ["--store", "store", "list"], ["list", "store", "--store"],
                  "view --segment seg --count 1 --changes 80000000".split(), "view --segment seg --count 1 --words 3".split(),
                  "view --segment seg --count 1 --from 80000000".split(), "view --segment seg --changes 80000000".split(),
                  "view --segment seg --count 1 --from 80000ffc --words 1".split(),
                  "view --segment seg --count 1 --from 80000ffc --words 2".split(),
                  "view --segment seg --count 1 --from 80000002 --words 1".split(),
                  "view --segment seg --count 0 --from 80000000 --words 1024".split(),
                  "view --segment seg --count 0 --from 80000000 --words 4096".split(),
                  "view --segment seg --count 0 --from 80000000 --words 4097".split(),
                  "view --segment seg --changes 80000001".split(), "view --segment seg --changes 80001000".split(),
                  "view --segment seg --changes 7ffffffc".split(), "view --segment seg --count 1024".split(),
                  "view --segment seg --count 1025".split(), "view --segment late --count 0".split(),
                  "audit --segment seg --key pub --auths auths".split(), "audit --segment seg --image image".split(),
                  "audit --segment seg".split(), "audit --segment late --key pub --auths late.auths --evidence out.ev".split(),
                  "keygen --height 5 --w 3 --id 000102030405060708090a0b0c0d0e0f --seed %s --key a --public b".split(),
                  ["sample", "--seed", "4294967296"], ["sample", "--seed", "07"]):
        c.both("words", words, dict(files))


def grammars(c, files):
    """Configurations and scripts at the bounds of their grammars."""
    good = '{"own":0,"pages":1,"snap":1024,"peers":[]}'
    key = files["pub"].hex()
    peer = lambda i, k=key: '{"id":%s,"key":"%s"}' % (i, k)
    with_peers = lambda *peers: good.replace("[]", "[" + ",".join(peers) + "]")
    texts = [good, " \t\r\n" + good + "\n", good[:-1], good + "x", good.replace("1024", "1023"), good.replace("1024", "16777216"),
             good.replace("1024", "16777217"), good.replace("1024", "1024.0"), good.replace("1024", "1.024e3"), good.replace('"own":0', '"own":-0'),
             good.replace('"own":0', '"own":-1'), good.replace('"own":0', '"own":15'), good.replace('"own":0', '"own":true'),
             good.replace('"own":0', '"own":3,"own":0'), good.replace('"own":0', '"own":0,"own":16'), good.replace('"own":0', '"\\u006fwn":0'),
             good.replace('"own":0', '"own":00'), good.replace('"own":0', '"own":"0"'), good.replace("[]", "{}"), good.replace("[]", "null"),
             with_peers(peer(1)), with_peers(peer(1), peer(1)), with_peers(peer(3), peer(1)), with_peers(peer(0)), with_peers(peer(16)),
             with_peers(*[peer(i) for i in range(15, 0, -1)]), with_peers(peer(1, key.upper())), with_peers(peer(1, key[:-1])),
             with_peers(peer(1, key[:-2])), with_peers(peer(1, "0000000a" + key[8:])), with_peers(peer(1, key[:8] + "00000005" + key[16:])),
             with_peers(peer(1, "00000009" + key[8:])), with_peers(peer(1)[:-1] + ',"more":1}'), with_peers('{"id":1}'), with_peers("1"),
             with_peers(peer(1)[:-1] + ',"id":2}'), "", "[]", "null", "{" * 200, "[" * 128 + "]" * 128, good + " " * (65536 - len(good)),
             good + " " * (65537 - len(good)), '{"own":1e999,' + good[1:], '{"own":"\\ud800",' + good[1:], '{"own":"\\ud83d\\ude00",' + good[1:],
             good.replace("own", "own\u00e9"), good.replace("}", ",}"), good.replace(":0", ":,0"), good.replace("[]", "[,]"), "\ufeff" + good,
             "// \n" + good, good.replace('"own"', "'own'"), '{"own":"\x01",' + good[1:], '{"own":[[[{"a":[]}]]],' + good[1:]]
    bytes_too = [text.encode() for text in texts] + [good.encode().replace(b"own", b"o\xffwn"), b"\xff", good.encode("utf-16")]
    for text in bytes_too:
        c.both("configuration %r" % text[:100], line("format"), changed(dict(files, config=text), "format", {"config": text}))
    c.bell = True
    for value in ("1", "2", "3", "0", "2.0", '"2"', "null"):
        text = (good[:-1] + ',"machine":%s}' % value).encode()
        c.both("machine %s" % value, line("format"), changed(dict(files, config=text), "format", {"config": text}))
    c.bell = False
    scripts = ["end 0", "end 0\n", "\n\nend 0\n\n# more\n", "end 0\nend 0\n", "end 0\nclock 1\n", "", "#\n", "clock 1\n", "end 00\n", "end 4611686018427387903\n",
               "end 4611686018427387904\n", "end  0\n", " end 0\n", "end 0 \n", "end 0\r\n", "END 0\n", "clock 18446744073709551615\nend 0\n",
               "clock 18446744073709551616\nend 0\n", "clock 0\nclock 5\nend 0\n", "at 0 console 41\nend 0\n", "at 0 console\nend 0\n",
               "at 0 console \nend 0\n", "at 0 console 4\nend 0\n", "at 0 console 4g\nend 0\n", "at 0 console aA\nend 0\n",
               "at 0 console %s\nend 0\n" % ("41" * 256), "at 0 console %s\nend 0\n" % ("41" * 257), "at 0 packet %s\nend 0\n" % ("01" * 20000),
               "at 0 packet %s\nend 0\n" % ("01" * 20001), "at 0 packet 03\nend 0\n", "at 0 resend 0\nend 0\n", "at 0 resend 15\nend 0\n",
               "at 0 resend 16\nend 0\n", "at 0 resend 01\nend 0\n", "at 5 console 41\nat 4 console 41\nend 9\n", "at 5 console 41\nend 4\n",
               "at 5 console 41\nend 5\n", "at 0 nothing 41\nend 0\n", "at 0 console 41 41\nend 0\n", "clock 1\nat 0 console 41\nclock 2\nend 0\n"]
    for text in [text.encode() for text in scripts] + [b"# \xff\xfe\nend 0\n", b"#\0\nend 0\n", b"\xffend 0\n", b"end 0\n\0"]:
        c.both("script %r" % text[:60], line("record"), changed(dict(files, script=text), "record", {"script": text}))


def spares(c, files):
    """Spares of each kind, before the mark and behind it, and runs that were cut between a retain's steps."""
    done = dict(files, into=b"")
    m.avm(line("retain"), done)
    base, retired = done["into"], done["store"]
    for store in (files["store"], retired):
        for name, spare in [("base", base), ("base, place 0 closed", b"\0" + base[1:]), ("place 0 another", b"x" + base[1:]),
                            ("zeros behind", b"\0" + base[1:] + bytes(5)), ("active, zeros behind", base + bytes(5)),
                            ("a byte behind", b"\0" + base[1:] + b"\0\1"), ("cut", b"\0" + base[1:-1]), ("active cut", base[:-1]),
                            ("a byte changed", b"\0" + base[1:200] + b"\xee" + base[201:]), ("active, a byte changed", base[:200] + b"\xee" + base[201:]),
                            ("zeros", bytes(len(base) + 7)), ("A", b"A"), ("AV", b"AV"), ("gate closed", base[:-80] + bytes(80)),
                            ("the store", files["store"])]:
            for at in (4, 3):
                words = line("retain")[:-1] + [str(at)]
                c.both("spare: %s, at %d" % (name, at), words, {"store": store, "into": spare})


def rebuttals(c, files):
    """Evidence of each form against the store that it speaks of, its base, and the store when it is retired."""
    key = m.read_private(files["key"])
    journal = m.journal_of(files["store"])
    start, before, state, frames = m.read_segment(files["seg"])
    leaf = itertools.count(6)
    pair = lambda n, h: m.put_auth(n, h, key.sign(next(leaf) % 32, m.signed_text(n, h)))
    bent = [frames[0], compare.recount(frames[1], 1023)] + frames[2:]
    wrong, seal = m.chain_of(before, bent), files["auths"]
    spread = dict(files, into=b"")
    m.avm(line("retain"), spread)
    for name, given, auths in [
            ("fork below the seal", frames, seal + pair(3, m.ZERO)), ("fork at the seal", frames, seal + pair(2, m.ZERO) + pair(1, m.ZERO)),
            ("fork of a forged log", bent, pair(4, wrong[4]) + pair(3, journal.hashes[3])), ("a forged log", bent, pair(4, wrong[4])),
            ("a forged front", bent, pair(2, wrong[2])), ("a forged middle", bent, pair(3, wrong[3])), ("double with the seal", frames, pair(4, m.ZERO) + seal),
            ("double without", frames, pair(3, m.ZERO) + pair(3, wrong[3])), ("double of one", frames, pair(1, journal.hashes[1]) + pair(1, m.ZERO)),
            ("double far behind", frames, pair(9, m.ZERO) + pair(9, wrong[3]))]:
        evidence = m.verdict(m.put_segment(1, before, state, given), key.public(), auths)[2]
        for whose, store in (("the store", files["store"]), ("the base", spread["into"]), ("the retired store", spread["store"])):
            c.both("%s against %s" % (name, whose), line("rebut"), {"store": store, "ev": evidence})


def rolls(c, files):
    """Rolls of each kind, and as many keys as there are leaves."""
    roll = files["roll"]
    open_end = roll[:-1] + b"\1"
    for name, data in [("open end", open_end), ("cut end", roll[:-1]), ("torn", roll[:-1] + b"\0" + b"x" * 90), ("open, torn", open_end + b"x" * 30),
                       ("open, a key", open_end + b"x" * 56), ("open, two", open_end + b"x" * 56 + b"\1"), ("no types", roll[:9] + u32(4) + roll[13:]),
                       ("three levels", roll[:5] + u32(3) + roll[9:]), ("version 2", roll[:4] + b"\2" + roll[5:]), ("key cut", roll[:64]),
                       ("header alone", roll[:65]), ("twice", roll[:-1] + roll[65:122] + b"\0"),
                       ("full", roll[:-1] + b"".join(b"\1" + bytes([i]) * 56 for i in range(31)) + b"\0"),
                       ("one left", roll[:-1] + b"".join(b"\1" + bytes([i]) * 56 for i in range(30)) + b"\0")]:
        for public in ("pub", "toppub"):
            words = "enroll --store roll --key top --public %s --endorse out.end" % public
            c.both("roll: %s, %s" % (name, public), words.split(), {k: dict(files, roll=data)[k] for k in ("roll", "top", public)})
    wide, second = files["wide"], dict(files)
    m.avm("enroll --store roll --key top --public toppub --endorse end2".split(), second)
    top = m.read_private(files["top"])
    auth = m.put_auth(9, m.ZERO, top.sign(3, m.signed_text(9, m.ZERO)))
    second["auths"] = auth
    m.avm("widen --endorse end2 --auths auths --out wide2".split(), second)
    seq, h, sig = m.read_auth(m.Reader(wide), m.LONGEST_HSS)
    for name, data in [("none", b""), ("twice", wide + wide), ("mixed", wide + second["wide2"]), ("mixed third", wide + wide + second["wide2"]),
                       ("bad second", wide + second["wide2"][:-1] + b"\0"), ("bad, then mixed", second["wide2"][:-1] + b"\0" + wide),
                       ("level word", m.put_auth(seq, h, u32(2) + sig[4:])), ("short", m.put_auth(seq, h, sig[:-1])), ("longer", m.put_auth(seq, h, sig + b"\0")),
                       ("no signature", m.put_auth(seq, h, b"")), ("plain", files["auths"]), ("other number", m.put_auth(seq + 1, h, sig)),
                       ("number 0", m.put_auth(0, h, sig)), ("too long", m.put_auth(seq, h, bytes(18709))), ("longest", m.put_auth(seq, h, bytes(18708)))]:
        c.both("narrow: " + name, line("narrow"), {"toppub": files["toppub"], "wide": data})
    for name, data in [("no authenticator", b""), ("two", files["auths"] * 2)]:
        c.both("widen: " + name, line("widen"), {"end": files["end"], "auths": data})


def samples(c):
    """Samples against the lines that the model gave once, since it takes long (check_model.py all)."""
    for seed in (7, 7, 4294967295):
        got = c.answers(["sample", "--seed", str(seed)], {})
        if got == both.NOT_BUILT:
            c.skip(["sample"])
        elif got == (check_model.sample_text(seed), 0):
            c.passed += 1
        else:
            c.failed.append("sample %d: got %r" % (seed, got))


def main():
    c, files = both.Both(sys.argv[1], sys.argv[2]), good_files()
    worked_examples(c)
    words_of(c, files)
    grammars(c, files)
    spares(c, files)
    rebuttals(c, files)
    rolls(c, files)
    orders(c, files)
    samples(c)
    return c.end("commands: ")


if __name__ == "__main__":
    sys.exit(main())
