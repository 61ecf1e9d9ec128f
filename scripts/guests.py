"""Runs the guests of ../guest on the independent model and holds their logs against the kept ones.

Usage: guests.py [--program PROGRAM] [--built FOLDER]    with the program, it also audits each log with the guest's image, convicts a
                                                         cheat of each, and runs them by it where it records; with images just built in FOLDER, it also
                                                         holds what those print
       guests.py --keep                                  writes the kept logs anew"""
import os
import subprocess
import sys
import tempfile

import model as m

GUEST = os.path.join(os.path.dirname(os.path.abspath(__file__)), "..", "guest")
GUESTS = ["hello", "echo", "ledger", "nim", "bell"]
KEY = m.Key(5, 4, bytes(range(16)), b"\x11" * 32)
RECORD = "record --store store --key key --script script --packets packets --console console --auths auths"


def read(*path):
    with open(os.path.join(*path), "rb") as f:
        return f.read()


def appended(folder, name):
    """What was appended to a file: nothing where it was never made."""
    return read(folder, name) if os.path.exists(os.path.join(folder, name)) else b""


class Run:
    """A guest's log: what `record` and `list` print, the segment, and what it printed and sent."""

    def __init__(self, name, image):
        self.files = {"key": KEY.private(), "public": KEY.public(), "image": image,
                      "config": read(GUEST, "runs", name + ".config"), "script": read(GUEST, "runs", name + ".script")}
        self.must("format --store store --key key --config config --image image")
        told = self.must(RECORD).splitlines()
        self.text = self.must("list --store store") + told[-1] + "\n"
        self.last = int(told[-1].split()[2])
        self.must("export --store store --from 1 --to %d --segment segment" % self.last)
        frames = m.read_segment(self.files["segment"])[3]
        self.steps = m.count_of(frames[-1][2])
        # the same whatever the compiler
        self.said = [content[8:] for _, kind, content in frames if kind in (m.OUT, m.SEND, m.HALT)]

    def cheat(self):
        """The log with another byte in its first output, its last entry signed by the same key at a leaf that the store never used;
        the verdict's line has to name that output."""
        start, before, state, frames = m.read_segment(self.files["segment"])
        at = next(i for i, (_, kind, _) in enumerate(frames) if kind == m.OUT)
        seq, kind, content = frames[at]
        frames[at] = seq, kind, content[:8] + bytes([content[8] ^ 1]) + content[9:]
        h = m.chain_of(before, frames)[self.last]
        auth = m.put_auth(self.last, h, KEY.sign(31, m.signed_text(self.last, h)))
        return m.put_segment(start, before, state, frames), auth, "fault replay %d\n" % seq

    def must(self, line):
        printed, status = m.avm(line.split(), self.files)
        assert status == 0, (line, printed)
        return printed


def by_program(program, run):
    """What is wrong with the program's answers on a run."""
    with tempfile.TemporaryDirectory() as folder:
        claimed, auth, fault = run.cheat()
        given = dict(run.files, claimed=claimed, claims=auth)
        for name in ("key", "public", "image", "config", "script", "segment", "auths", "claimed", "claims"):
            with open(os.path.join(folder, name), "wb") as f:
                f.write(given[name])

        def answer(line):
            done = subprocess.run([program, *line.split()], cwd=folder, capture_output=True, timeout=120)
            return done.stdout.decode("latin-1")

        got = answer("audit --segment segment --image image --key public --auths auths --evidence evidence")
        want = "accepted 1 to %d covered %d\n" % (run.last, run.last)
        if got == "refused malformed\n" and b'"machine": 2' in run.files["config"]:
            print("guests: the program doesn't know machine version 2 yet")
            return []
        if got != want:
            return ["expected %r, got %r" % (want, got)]
        got = (answer("audit --segment claimed --key public --auths claims --evidence cheat"), answer("check --key public --evidence cheat"))
        if got != (fault, "evidence stands\n"):
            return ["a cheat: expected %r and evidence that stands, got %r" % (fault, got)]
        os.remove(os.path.join(folder, "auths"))
        if "refused notbuilt\n" in (answer("format --store store --key key --config config --image image"), answer(RECORD)):
            return []
        text = answer("list --store store")
        wrong = [] if text in ("refused notbuilt\n", run.text[:len(text)]) else ["the program lists another log"]
        return wrong + ["%s differs" % name for name in ("packets", "console", "auths")
                        if appended(folder, name) != run.files.get(name, b"")]


def main(words):
    options = dict(zip(words[::2], words[1::2]))
    program, built = options.get("--program"), options.get("--built")
    failed = 0
    for name in GUESTS:
        run = Run(name, read(GUEST, "images", name + ".img"))
        kept = os.path.join(GUEST, "runs", name + ".list")
        if words == ["--keep"]:
            with open(kept, "w") as f:
                f.write(run.text)
            continue
        wrong = [] if read(kept).decode() == run.text else ["its log isn't the kept one"]
        wrong += by_program(os.path.abspath(program), run) if program else []
        if built and Run(name, read(built, name + ".img")).said != run.said:
            wrong.append("built anew it prints something else")
        failed += bool(wrong)
        print("guests: %s: %s" % (name, "; ".join(wrong) or "%d entries, %d steps" % (run.last, run.steps)))
    return 1 if failed else 0


if __name__ == "__main__":
    sys.exit(main(sys.argv[1:]))
