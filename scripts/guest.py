"""Audits a run of a compiled guest with the guest's executable as its image: guest.py PROGRAM FOLDER, with guest.elf in the
folder. The segment is made by the independent model."""
import os
import subprocess
import sys

import model as m

PAGES = 16
PRINTED = b"primes 2 3 5 7 11 13 17 19 23 29 31 37 41 43 47 53 59\n17 sum 440\n"


def main():
    program, folder = os.path.abspath(sys.argv[1]), sys.argv[2]
    path = os.path.join(folder, "guest.elf")
    image = open(path, "rb").read()
    ram, entry = m.load_image(image, PAGES)
    state = m.Machine(ram=ram, pc=entry, pages=PAGES)
    frames, last = m.record(state, 100000)
    printed = b"".join(content[8:] for _, kind, content in frames if kind == m.OUT)
    assert (printed, last.status) == (PRINTED, m.HALTED), (printed, last.status)
    segment = m.put_segment(1, bytes(32), state, frames)
    compressed = image[:36] + bytes([image[36] | 1]) + image[37:]
    offset = int.from_bytes(image[52 + 4:52 + 8], "little")
    changed = image[:offset] + bytes([image[offset] ^ 0x80]) + image[offset + 1:]
    accepted = "accepted 1 to %d covered 0" % frames[-1][0]
    failed = 0
    for name, given, line, status in [
            ("its own image", image, accepted, 0), ("one byte of code", changed, "refused image", 2),
            ("a byte behind that isn't loaded", image + b"\0", accepted, 0),
            ("compressed code", compressed, "refused file --image", 3), ("flat bytes", image[1:], "refused image", 2)]:
        for file, data in (("segment", segment), ("image", given)):
            with open(os.path.join(folder, file), "wb") as f:
                f.write(data)
        done = subprocess.run([program, "audit", "--segment", "segment", "--image", "image"], cwd=folder, capture_output=True,
                              timeout=120)
        want = line.encode() + b"\n"
        if (done.stdout, done.returncode) != (want, status):
            failed += 1
            print("guest, %s: expected %r %d, got %r %d" % (name, want, status, done.stdout, done.returncode))
    print("guest: %d entries, %d steps, %d failed" % (len(frames), last.count, failed))
    return 1 if failed else 0


if __name__ == "__main__":
    sys.exit(main())
