"""Audits a run of guest.elf whose outputs are what an emulator printed: emulator.py PROGRAM FOLDER, with guest.elf and printed in
the folder. The counts of the outputs are the independent model's, their bytes the emulator's. A change in any of its lines has to
be found."""
import os
import subprocess
import sys

import model as m

PAGES = 16


def main():
    program, folder = os.path.abspath(sys.argv[1]), sys.argv[2]
    image = open(os.path.join(folder, "guest.elf"), "rb").read()
    printed = open(os.path.join(folder, "printed"), "rb").read().splitlines(True)
    ram, entry = m.load_image(image, PAGES)
    state = m.Machine(ram=ram, pc=entry, pages=PAGES, snap=1 << 20)
    frames, last = m.record(state, 1 << 20)
    places = [i for i, frame in enumerate(frames) if frame[1] == m.OUT]
    failed = len(places) != len(printed) or last.status != m.HALTED
    for i, text in zip(places, printed):
        seq, kind, content = frames[i]
        frames[i] = (seq, kind, content[:8] + text)
    cases = [(frames, "accepted 1 to %d covered 0" % frames[-1][0], 0)]
    for i in places:
        seq, kind, content = frames[i]
        changed = frames[:i] + [(seq, kind, content[:-2] + bytes([content[-2] ^ 1]) + content[-1:])] + frames[i + 1:]
        cases.append((changed, "refused uncovered %d" % seq, 2))
    for case, line, status in cases:
        with open(os.path.join(folder, "segment"), "wb") as f:
            f.write(m.put_segment(1, bytes(32), state, case))
        done = subprocess.run([program, "audit", "--segment", "segment", "--image", "guest.elf"], cwd=folder, capture_output=True,
                              timeout=120)
        want = line.encode() + b"\n"
        if (done.stdout, done.returncode) != (want, status):
            failed += 1
            print("emulator: expected %r %d, got %r %d" % (want, status, done.stdout, done.returncode))
    print("emulator: %d lines of the emulator, %d steps, %d audits, %d failed" % (len(printed), last.count, len(cases), failed))
    return 1 if failed else 0


if __name__ == "__main__":
    sys.exit(main())
