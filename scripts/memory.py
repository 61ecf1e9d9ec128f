"""Runs every command with each of its allocations failing in turn, alone and with all behind it. The answer must be `no memory`
with 5, or 4 by an object of the outside; nothing that was there may be lost, and a store must open again.

Usage: memory.py PROGRAM SHIM FOLDER [MOST]. MOST allocations a command are taken, evenly, where it makes more; 0 takes all."""
import os
import subprocess
import sys

import both
import check_model
import compare_commands
import crash
import model as m


def allocations(c, shim, words, files, at=0, onward=False):
    """The answer on these files with the at-th allocation failing, and how many there were."""
    c.clear(files)
    told = os.path.abspath(c.folder + ".count")
    scarce = {"LD_PRELOAD": shim, "SCARCE_TOLD": told, "SCARCE_AT": str(at), **({"SCARCE_AFTER": "1"} if onward else {})}
    done = subprocess.run([c.program, *words], cwd=c.folder, capture_output=True, timeout=300, env={**os.environ, **scarce})
    return done.stdout.decode("latin-1"), done.returncode, done.stderr, int(open(told).read())


def is_kept(words, before, left):
    """Whether each file that was there stands as it did, or grew where the command writes."""
    written = [words[n + 1] for n in range(1, len(words) - 1, 2)]
    return all(left.get(name, b"")[:len(data)] == data or name in written and name not in ("key", "pub", "store", "roll") for name, data in before.items())


def one(c, shim, words, files, at, onward, normal):
    """One allocation's failure; gives whether the run went on as if nothing were."""
    text, status, told, _ = allocations(c, shim, words, files, at, onward)
    left, last = c.left(), text.splitlines()[-1:]
    case = "%s, allocation %d%s" % (" ".join(words), at, " and all behind" if onward else "")
    if told or not (status == 5 and last == ["no memory"] or status == 4 and (not last or last[0].startswith("fault")) or (text, status) == normal):
        c.failed.append("%s: got %r %d %r" % (case, text, status, told[:80]))
    elif words[0] not in ("record", "retain", "enroll", "roll", "format") and not is_kept(words, files, left):
        c.failed.append("%s: something is lost" % case)
    elif words[0] in ("record", "retain", "format"):
        opens_again(c, case, words, left)
    c.passed += 1
    return (text, status) == normal


def opens_again(c, case, words, left):
    if words[0] != "format" and crash.lost(words, left):
        c.failed.append("%s: lost %r" % (case, crash.lost(words, left)))
    for name in crash.disks(words):
        if name in left:
            c.both(case, ["list", "--store", name], dict(left))


def command(c, shim, words, files, most):
    text, status, _, count = allocations(c, shim, words, files)
    if (text, status) == both.NOT_BUILT:
        return c.skip(words)
    step = max(1, count // most) if most else 1
    unmoved = sum(one(c, shim, words, files, at, onward, (text, status)) for at in range(1, count + 1, step) for onward in (False, True))
    print("memory: %s: %d allocations, %d tried, %d runs weren't touched" % (words[0], count, len(range(1, count + 1, step)), unmoved))


def told_with_messages():
    """A recording with messages of a peer, as the worked example has it."""
    key, peer = check_model.private(check_model.SEED, ots=1), check_model.PeerLog(1, m.read_private(check_model.private(b"\x42" * 32, ots=1)))
    f = check_model.Folder(check_model.Checks(), check_model.compare.ECHO, peers=[(1, peer.key.public())])
    f.files["key"] = key
    f.format()
    f.files["script"] = b"clock 7\nat 0 packet %s\nat 0 console 6869\nend 40000\n" % peer.data(0, 1).hex().encode()
    return "record --store store --key key --script script --packets packets --console console --auths auths".split(), f.files


def main():
    program, shim, folder = sys.argv[1:4]
    most = int(sys.argv[4]) if len(sys.argv) > 4 else 60
    c = crash.Traced(program, folder)
    files = compare_commands.good_files()
    for name in compare_commands.GIVEN:
        words = compare_commands.line(name)
        command(c, os.path.abspath(shim), words, {k: v for k, v in files.items() if k in words[2::2]}, most)
    words, files = told_with_messages()
    command(c, os.path.abspath(shim), words, {k: v for k, v in files.items() if k in words[2::2]}, most)
    return c.end("memory: ")


if __name__ == "__main__":
    sys.exit(main())
