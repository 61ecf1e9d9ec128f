"""Times `audit` on the log of digest.bin beside the plain interpreter on the same image. Usage: replay.py PROGRAM FOLDER."""
import os
import resource
import shutil
import subprocess
import sys

sys.path.insert(0, os.path.join(os.path.dirname(os.path.abspath(__file__)), "..", "scripts"))
import model as m  # noqa: E402


def spent():
    used = resource.getrusage(resource.RUSAGE_CHILDREN)
    return used.ru_utime + used.ru_stime


def best(command, folder):
    """The least processor time of five runs, in seconds, and what the last one prints."""
    took = []
    for _ in range(5):
        began = spent()
        done = subprocess.run(command, cwd=folder, capture_output=True)
        took.append(spent() - began)
    return min(took), done.stdout.decode()


def counted(command, folder):
    """Machine instructions of a run; None where valgrind isn't there."""
    if not shutil.which("valgrind"):
        return None
    tool = ["valgrind", "--tool=callgrind", "--callgrind-out-file=/dev/null"]
    text = subprocess.run(tool + command, cwd=folder, capture_output=True).stderr.decode()
    return int(text.rpartition("Collected : ")[2].split()[0])


def main():
    program, folder = os.path.abspath(sys.argv[1]), sys.argv[2]
    plain = [os.path.join(folder, "plain"), "image", "digest.bin"]
    plain_time, text = best(plain, folder)
    *lines, halt = text.splitlines()
    steps, _, cause, value = halt.split()
    steps = int(steps)
    with open(os.path.join(folder, "digest.bin"), "rb") as f:
        ram = f.read().ljust(4096 * 16, b"\0")
    state = m.Machine(snap=1 << 24, pages=16, ram=ram)
    frames = [(1, m.BOOT, m.u64(0) + state.root())]
    for line in lines:
        count, _, said = line.partition(" ")
        frames.append((len(frames) + 1, m.OUT, m.u64(int(count)) + said.encode() + b"\n"))
    frames.append((len(frames) + 1, m.HALT, m.u64(steps) + m.u32(int(cause)) + m.u32(int(value))))
    with open(os.path.join(folder, "digest.seg"), "wb") as f:
        f.write(m.put_segment(1, bytes(32), state, frames))
    audit = [program, "audit", "--segment", "digest.seg"]
    took, said = best(audit, folder)
    print("digest: %s; %d steps; audit %.1f million a second, plain C %.1f; audit / plain C %.2f"
          % (said.strip(), steps, steps / took / 1e6, steps / plain_time / 1e6, plain_time / took))
    counts = counted(audit, folder), counted(plain, folder)
    if None not in counts:
        print("digest: machine instructions a step: audit %.1f, plain C %.1f" % (counts[0] / steps, counts[1] / steps))


if __name__ == "__main__":
    main()
