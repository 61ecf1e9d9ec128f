"""Times `record` beside `audit` of the same run, and its commits beside the same calls on a plain file. Usage: record.py PROGRAM FOLDER."""
import os
import resource
import struct
import subprocess
import sys
import time

FEW, STEPS = 1_000, 100_000_000
LINES = 200
TIMES = 5

# counts x5 up, and jumps back
SPINS = [0x00128293, 0xFFDFF06F]
# puts `x` and a line's end to the console, and jumps back: each line is an entry that is saved by itself
PRINTS = [0x100002B7, 0x07800313, 0x00A00393, 0x0062A023, 0x0072A023, 0xFF9FF06F]


def spent():
    used = resource.getrusage(resource.RUSAGE_CHILDREN)
    return used.ru_utime + used.ru_stime


class Store:
    def __init__(self, program, folder, name, words, snap, end):
        self.program, self.folder, self.name = program, folder, name
        self.write("image", b"".join(struct.pack("<I", word) for word in words))
        self.write("config", b'{"own":0,"pages":1,"snap":%d,"peers":[]}' % snap)
        self.write("script", b"end %d\n" % end)

    def path(self, word):
        return os.path.join(self.folder, self.name + "." + word)

    def write(self, word, data):
        with open(self.path(word), "wb") as f:
            f.write(data)

    def run(self, *words):
        began, clock = spent(), time.monotonic()
        done = subprocess.run([self.program, *words], capture_output=True, text=True)
        return spent() - began, time.monotonic() - clock, done.stdout.strip()

    def key(self):
        return os.path.join(self.folder, "key")

    def record(self):
        """A new store, recorded: processor seconds, seconds of the clock, and what was printed."""
        for word in ("store", "packets", "console", "auths", "seg"):
            if os.path.exists(self.path(word)):
                os.remove(self.path(word))
        self.run("format", "--store", self.path("store"), "--key", self.key(), "--config", self.path("config"), "--image", self.path("image"))
        return self.run("record", "--store", self.path("store"), "--key", self.key(), "--script", self.path("script"),
                        "--packets", self.path("packets"), "--console", self.path("console"), "--auths", self.path("auths"))


def best_steps(store):
    took, said = [], ""
    for _ in range(TIMES):
        user, _, said = store.record()
        took.append(user)
    return min(took), said


def audited(store, last):
    store.run("export", "--store", store.path("store"), "--from", "1", "--to", str(last), "--segment", store.path("seg"))
    if not os.path.exists(store.path("seg")):
        return None, ""
    took, said = [], ""
    for _ in range(TIMES):
        user, _, said = store.run("audit", "--segment", store.path("seg"))
        took.append(user)
    return min(took), said


def plain(folder, count, size):
    """Seconds of the four calls of so many commits on a plain file, a record and its gate, each synced; and then of what a recorder does
    with the line that it releases: it is appended to another file."""
    path, console = os.path.join(folder, "plain"), os.path.join(folder, "plain.console")
    took = []
    for _ in range(TIMES):
        open(console, "wb").close()
        with open(path, "wb") as f:
            handle, at = f.fileno(), 0
            began = time.monotonic()
            for _ in range(count):
                os.pwrite(handle, bytes(size), at + 1)
                os.fsync(handle)
                os.pwrite(handle, b"\1", at)
                os.fsync(handle)
                at += size
                with open(console, "ab") as line:
                    line.write(b"x\n")
            took.append(time.monotonic() - began)
    return min(took)


def steps_store(program, folder, name, end):
    return Store(program, folder, name, SPINS, 1 << 24, end)


def main():
    program, folder = os.path.abspath(sys.argv[1]), sys.argv[2]
    short, long = steps_store(program, folder, "short", FEW), steps_store(program, folder, "long", STEPS)
    short.run("keygen", "--height", "5", "--w", "1", "--id", "00" * 16, "--seed", "11" * 32, "--key", short.key(), "--public", short.path("public"))
    fixed, said = best_steps(short)
    if not said.startswith("recorded"):
        print("record: the program answers `%s`, skipped" % said)
        return
    took, said = best_steps(long)
    print("record: %s; %.1f million steps a second, beside %.3f s of opening, key and seal" % (said, (STEPS - FEW) / (took - fixed) / 1e6, fixed))
    last = int(said.split()[2])
    begun, _ = audited(short, 1)
    audit, said = audited(long, last)
    if audit is not None:
        # the segment ends at the last snapshot
        audited_steps = (last - 1) << 24
        rate, other = audited_steps / (audit - begun), (STEPS - FEW) / (took - fixed)
        print("audit of the same run: %s; %.1f million steps a second; record / audit %.2f" % (said, rate / 1e6, other / rate))

    # five words set up, and each line is three steps
    lines = Store(program, folder, "lines", PRINTS, 1 << 24, 3 + 3 * LINES)
    took = []
    for _ in range(TIMES):
        _, clock, said = lines.record()
        took.append(clock)
    size = (os.path.getsize(lines.path("store")) - 4096) // LINES
    four = plain(folder, LINES, size)
    commits = min(took) - fixed
    print("commits: %s; %.0f a second; the same calls on plain files %.0f a second; ratio %.2f" % (said, LINES / commits, LINES / four, four / commits))


if __name__ == "__main__":
    main()
