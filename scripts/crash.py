"""Ends the program in each of its writes and syncs in turn, and lets each of them fail once, by strace's injection into the
project's own program; then drops, keeps or tears the writes since the last sync on a copy, and lets the commands go on there. What
was released before must stand in the journal that opens, and every line and byte behind it is held against the model.

Usage: crash.py PROGRAM FOLDER [SEED [CASES]]. Equal seeds give equal cases; CASES 0 takes every moment of every command."""
import os
import random
import re
import shutil
import subprocess
import sys
import time

import both
import check_model
import compare_commands
import model as m
import stories

CALLS = ("pwrite64", "fsync", "fdatasync", "write")
CHANGING = ("format", "record", "retain", "roll", "enroll")
LINE = re.compile(r"^(?:\d+ +)?(\w+)\((\d+)<([^>]*)>")


class Traced(both.Both):
    """Runs the program under strace."""

    def trace(self, words, files, inject=None):
        """The calls with the files they are made on, what was printed, the status, and the files behind it."""
        log = os.path.abspath(self.folder + ".trace")
        asked = ["-e", "inject=" + inject] if inject else []
        program, self.program = self.program, None
        try:
            words = ["strace", "-f", "-y", "-qq", "-o", log, "-e", "trace=" + ",".join(CALLS), *asked, program, *words]
            answer = self.answers_of(words, files)
        finally:
            self.program = program
        found = [LINE.match(line) for line in open(log, encoding="latin-1")]
        calls = [(f.group(1), os.path.basename(f.group(3)) if f.group(2) != "1" else None) for f in found if f]
        return calls, answer, self.left()

    def answers_of(self, command, files):
        self.clear(files)
        done = subprocess.run(command, cwd=self.folder, capture_output=True, timeout=300)
        return done.stdout.decode("latin-1"), done.returncode

    def clear(self, files):
        shutil.rmtree(self.folder, ignore_errors=True)
        os.makedirs(self.folder)
        for name, data in files.items():
            self.put(name, data)


def moments(calls):
    """Per call its name and the how many-th of its name it is."""
    met = {}
    for call, name in calls:
        met[call] = met.get(call, 0) + 1
        yield call, met[call], name


def disks(words):
    return [words[n + 1] for n in range(1, len(words) - 1, 2) if words[n] in ("--store", "--into")]


def synced(words, files, states, calls, n):
    """Per disk its bytes at its last sync before the n-th call."""
    found = {name: files.get(name, b"") for name in disks(words)}
    for k, (call, name) in enumerate(calls[:n]):
        if call in ("fsync", "fdatasync") and name in found:
            found[name] = states[k].get(name, b"")
    return found


def torn(r, before, now):
    """What a crash may leave of a disk: a byte that was written since the last sync is the old one, the new one or any; its length is
    the old or the new one."""
    length, way = r.choice([len(before), len(now)]), r.randrange(3)
    free = r.choice([b"\0", b"\1", b"\xff"])
    data = bytearray(now[:length].ljust(length, free))
    for at in range(length):
        old = before[at:at + 1] or free
        if old != now[at:at + 1]:
            data[at:at + 1] = r.choice([old, now[at:at + 1] or free, r.randbytes(1)]) if way == 0 else [old, free][way - 1]
    return bytes(data)


def lost(words, files, gaps=False):
    """What was released and stands in no journal of these files. With `gaps` lines may be missing from the console: those that were saved
    when a crash came, which no later run releases."""
    journals = [j for j in (m.read(journal, files[name]) for name in disks(words) if name in files) if j]
    if not journals:
        return ["packets", "console", "auths"] if any(files.get(name) for name in ("packets", "console", "auths")) else []
    pairs = {pair for j in journals for pair in j.bound() | {(s.seq, s.hash) for s in j.signed_frames()}}
    found = ["a packet" for pair in packet_pairs(files.get("packets", b"")) if pair not in pairs]
    found += ["an authenticator" for seq, h, _ in m.read(m.read_auths, files.get("auths", b"")) or [] if (seq, h) not in pairs]
    whole = next((j for j in journals if j.first == 1), None)
    if whole:
        outs = [content[8:] for _, kind, content in whole.frames() if kind == m.OUT]
        console = files.get("console", b"")
        found += [] if (some_of(outs, console) if gaps else b"".join(outs).startswith(console)) else ["console"]
    return found


def some_of(outs, console):
    """Whether the console is some of the lines one after another."""
    ends = {0}
    for line in outs:
        ends |= {end + len(line) for end in ends if console.startswith(line, end)}
    return len(console) in ends


def journal(data):
    try:
        return m.journal_of(data)
    except m.Damaged:
        raise ValueError from None


def packet_pairs(data):
    for _, packet in check_model.pieces(data):
        p = m.read_packet(packet)
        yield p["seq"], m.link(p["before"], p["seq"], m.RECV if p["ack"] else m.SEND, p["content"])


def opened(files, name):
    """Whether a run may go on on a disk."""
    found = m.read(journal, files.get(name)) if name in files else None
    return found is not None and found.mark is None


def after(c, case, story, words, files, whole=True):
    """Goes on behind a crash or a fault: each command against the model."""
    files = dict(files)
    missing = lost(words, files) if words[0] in ("record", "retain") and whole else []
    if missing:
        c.failed.append("%s: %s: lost %s" % (case, " ".join(words), ", ".join(missing)))
    if words[0] == "retain" and all(opened(files, name) for name in disks(words)):
        c.failed.append("%s: %s: both disks open" % (case, " ".join(words)))
    if words[0] in ("roll", "enroll"):
        follow = [words] if words[0] == "roll" else [words, words]
    else:
        follow = [line for name in disks(words) if name in files for line in going_on(story, files, name)]
    for line in follow:
        answer = c.both(case, line, files)
        if line[0] == "audit" and answer[1] not in (0, 3) and "seg" in files:
            c.failed.append("%s: what opens isn't accepted: %r" % (case, answer))
    if words[0] in ("record", "retain") and lost(words, files, gaps=True):
        c.failed.append("%s: lost behind the next run" % case)


def going_on(story, files, name):
    files["more"] = b"clock 7\nat 0 console 6869\nend %d\n" % (story.count + 3000)
    files.pop("seg", None)
    yield ["list", "--store", name]
    yield ("record --store %s --key key --script more --packets packets --console console --auths auths" % name).split()
    found = m.read(journal, files[name])
    if found and opened(files, name) and found.last >= found.first:
        yield ["export", "--store", name, "--from", str(found.first), "--to", str(found.last), "--segment", "seg"]
        files["judged"] = b"".join(m.put_auth(*a) for a in m.read(m.read_auths, files.get("auths", b"")) or [] if found.first <= a[0] <= found.last)
        yield "audit --segment seg --key pub --auths judged --evidence ev".split()


def ended(c, r, case, story, words, files, chosen):
    """Ends the program before each of its calls."""
    calls, answer, _ = c.trace(words, files)
    if answer == both.NOT_BUILT:
        return c.skip(words)
    states = [c.trace(words, files, "%s:signal=KILL:when=%d" % (call, n))[2] for call, n, _ in moments(calls)]
    for n, (call, name) in enumerate(calls):
        if not chosen():
            continue
        before = synced(words, files, states, calls, n)
        changed = [d for d, data in before.items() if states[n].get(d, b"") != data]
        here = "%s, ended in call %d (%s of %s)" % (case, n, call, name)
        after(c, here + ", kept", story, words, states[n])
        if changed:
            after(c, here + ", dropped", story, words, {**states[n], **{d: before[d] for d in changed}})
            after(c, here + ", torn", story, words, {**states[n], **{d: torn(r, before[d], states[n].get(d, b"")) for d in changed}})


def failed(c, case, story, words, files, chosen):
    """Lets each of the program's calls fail."""
    calls, answer, _ = c.trace(words, files)
    if answer == both.NOT_BUILT:
        return
    for n, (call, k, name) in enumerate(moments(calls)):
        if not chosen():
            continue
        here = "%s, call %d failed (%s of %s)" % (case, n, call, name)
        _, (text, status), left = c.trace(words, files, "%s:error=EIO:when=%d" % (call, k))
        want = "fault disk" if name in disks(words)[:1] else "fault spare" if name in disks(words) else "fault files"
        last = text.splitlines()[-1:] if name is not None else [want]
        if status != 4 or last != [want]:
            c.failed.append("%s: %s: expected %s and 4, got %r %d" % (here, " ".join(words), want, text, status))
        after(c, here, story, words, left, whole=name not in ("packets", "console", "auths"))


def tell(c, r, case, commands, chosen):
    story = stories.Story(r)
    c.bell = story.version == 2
    for n in range(commands):
        words = story.begin() if n == 0 else story.next()
        files = dict(story.files)
        if words[0] in CHANGING and not (c.bell and c.without_bell):
            here = "%s, command %d" % (case, n)
            ended(c, r, here, story, words, files, chosen)
            failed(c, here, story, words, files, chosen)
        answer = m.avm(words, story.files)
        story.after(words, answer)
        if n == 0 and answer[1]:
            break


def rolls(c, r, chosen):
    files = compare_commands.good_files()
    story = stories.Story(r)
    for command in ("roll", "enroll"):
        words = compare_commands.line(command)
        given = {name: data for name, data in files.items() if name in words[2::2]}
        if command == "roll":
            given.pop(words[2], None)
        ended(c, r, command, story, words, given, chosen)
        failed(c, command, story, words, given, chosen)


def main():
    seed = int(sys.argv[3]) if len(sys.argv) > 3 else time.time_ns() % 10 ** 6
    cases = int(sys.argv[4]) if len(sys.argv) > 4 else 200
    print("crash: seed %d, %s" % (seed, "%d cases" % cases if cases else "every moment"), flush=True)
    r, c = random.Random(seed), Traced(sys.argv[1], sys.argv[2])
    chosen = lambda: not cases or r.random() < 0.15
    rolls(c, r, lambda: True)
    for n in range(1000):
        if c.passed + sum(c.skipped.values()) >= (cases or 1000):
            break
        tell(c, random.Random("%d %d" % (seed, n)), "seed %d, story %d" % (seed, n), 6, chosen)
    return c.end("crash: ")


if __name__ == "__main__":
    sys.exit(main())
