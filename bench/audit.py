"""Times `audit`: a segment of many steps, many authenticators, and the longest files.
Usage: audit.py PROGRAM PEER MACHINE HASH FOLDER [STEPS [AUTHS]], where PEER is the program lms_peer, MACHINE that of bench/machine and
HASH that of bench/hash.

Prints instructions a second of the replay of a segment in 256 pages with a snapshot each 2^20 steps, beside the machine's steps
alone on the same five instructions, and their ratio; the time of `view` at the last count beside the audit; the time of an audit with
authenticators (height 5, w 8) beside as many plain calls of `verify`, and their ratio; the time of an audit of a segment of
nearly 2^26 bytes with nearly 2^24 bytes of authenticators; the memory of the audit of a segment of nearly 2^26 bytes and one page, without
evidence, beside that of the shortest segment, and its time beside hashing the same bytes once; the time of as many authenticators as a file
may have beside as many plain calls of `verify`; and the greatest resident memory of each run of the program."""
import os
import resource
import subprocess
import sys

sys.path.insert(0, os.path.join(os.path.dirname(os.path.abspath(__file__)), "..", "scripts"))
import model as m  # noqa: E402

# addi x1, x1, 1; lw x2, 0(x5); add x3, x3, x2; sw x3, 4(x5); bne x1, x0, back to the first
LOOP = "800012b7 00108093 0002a103 002181b3 0032a223 fe0098e3"


# Runs a command and prints its greatest resident memory behind what it prints: a child of this large process would inherit its.
MEASURE = """import resource, subprocess, sys
subprocess.run(sys.argv[1:])
print(resource.getrusage(resource.RUSAGE_CHILDREN).ru_maxrss)"""


def run(program, words, folder):
    began = spent()
    command = [sys.executable, "-c", MEASURE, os.path.abspath(program), *words]
    done = subprocess.run(command, cwd=folder, capture_output=True)
    line, peak = done.stdout.decode().split("\n")[:2]
    return spent() - began, line, int(peak) / 1024


def spent():
    used = resource.getrusage(resource.RUSAGE_CHILDREN)
    return used.ru_utime + used.ru_stime


def best(times, command, folder, data=b""):
    """The least processor time of some runs, in seconds, and what the last one prints."""
    took = []
    for _ in range(times):
        began = spent()
        done = subprocess.run(command, cwd=folder, input=data, capture_output=True)
        took.append(spent() - began)
    return min(took), done.stdout.decode()


def put(folder, name, data):
    with open(os.path.join(folder, name), "wb") as f:
        f.write(data)


def fast_frames(state, steps):
    """The snapshots of the loop, by its own arithmetic: running the model for ten million steps takes minutes."""
    frames, count = [(1, m.BOOT, m.u64(0) + state.root())], 0
    s = state.copy()
    while count < steps:
        count += state.snap
        done, rest = divmod(count - 1, 5)
        turns = [done + (1 if rest > i else 0) for i in range(5)]
        s.x[5] = 0x80001000
        s.x[1] = turns[0] & m.M32
        s.x[2], s.x[3] = 0, 0
        s.pc, s.count = 0x80000004 + 4 * rest, count
        frames.append((len(frames) + 1, m.SNAP, m.u64(count) + s.root()))
    return frames


def authenticators(program, peer, folder, many):
    """As many authenticators of one entry in an audit, beside as many lines for lms_peer; without the time of no authenticator."""
    small = m.Machine(ram=m.words("0000006f").ljust(4096, b"\0"))
    log = [(1, m.BOOT, m.u64(0) + small.root())]
    key = m.Key(5, 4, bytes(range(16)), b"\x33" * 32)
    h = m.chain_of(bytes(32), log)[1]
    text = m.signed_text(1, h)
    signed = [key.sign(q, text) for q in range(32)]
    sigs = [signed[q % 32] for q in range(many)]
    put(folder, "one.seg", m.put_segment(1, bytes(32), small, log))
    put(folder, "key", key.public())
    put(folder, "none", b"")
    put(folder, "auths", b"".join(m.put_auth(1, h, sig) for sig in sigs))
    words = [os.path.abspath(program), "audit", "--segment", "one.seg", "--key", "key", "--evidence", "e", "--auths"]
    bare, _ = best(5, words + ["none"], folder)
    took, line = best(5, words + ["auths"], folder)
    lines = "".join("verify %s %s %s\n" % (key.public().hex(), text.hex(), sig.hex()) for sig in sigs).encode()
    start, _ = best(5, [os.path.abspath(peer)], folder)
    plain, answers = best(5, [os.path.abspath(peer)], folder, lines)
    assert answers == "valid\n" * many and line.startswith("accepted")
    audit, calls = took - bare, plain - start
    print("authenticators: %s; %d in %.3f s, %.3f ms each; verify alone %.3f s; ratio %.2f"
          % (line.strip(), many, audit, 1000 * audit / many, calls, audit / calls))


def short_entries(program, hash_program, folder):
    """A segment of one page and entries of one byte, nearly 2^26 bytes: what the audit takes beside the shortest segment, beside
    hashing the file's bytes once with the kit's SHA-256, and beside hashing once with it the bytes that the chain hashes. Goals: at
    most 4 MiB more, at most 2.5 times what the chain hashes; an entry of 22 bytes is three blocks of 64 bytes there, so that no
    audit takes less than eight times the file's bytes at the kit's speed."""
    state = m.Machine(snap=1 << 24, ram=m.words("0000006f").ljust(4096, b"\0"))
    frames = [(1, m.BOOT, m.u64(0) + state.root())]
    put(folder, "short.seg", m.put_segment(1, bytes(32), state, frames))
    room = (1 << 26) - len(m.put_segment(1, bytes(32), state, frames))
    frames += [(2 + i, m.CONIN, m.u64(0) + b"a") for i in range(room // 22)]
    data = m.put_segment(1, bytes(32), state, frames)
    put(folder, "entries.seg", data)
    _, _, least = run(program, ["audit", "--segment", "short.seg"], folder)
    _, line, peak = run(program, ["audit", "--segment", "entries.seg"], folder)
    took, _ = best(3, [os.path.abspath(program), "audit", "--segment", "entries.seg"], folder)
    # ten times 16 MiB, page by page with a byte in front
    singles, _ = best(3, [os.path.abspath(hash_program), "singles"], folder)
    block = singles / (10 * 4096 * blocks(4097))
    hashed = block * len(data) / 64
    chained = block * sum(blocks(len(content)) + blocks(LINK) for _, _, content in frames)
    print("entries: %s; %d bytes, %d entries in %.2f s, %.1f MiB, %.1f MiB beside the shortest; hashing the file alone %.2f s, ratio %.2f; "
          "hashing what the chain hashes alone %.2f s, ratio %.2f"
          % (line, len(data), len(frames), took, peak, peak - least, hashed, took / hashed, chained, took / chained))


# the text of a link: the hash before, a number, a kind and the content's hash
LINK = 32 + 8 + 1 + 32


def blocks(length):
    """How many blocks SHA-256 takes for so many bytes (FIPS 180-4, 5.1.1)."""
    return (length + 9 + 63) // 64


def longest(program, folder):
    """A segment of CONIN entries of one byte in 4096 pages, of which only the first 1024 can be taken, and authenticators of its last
    entries: the most that is read, and evidence for a fault."""
    pages = 4096
    state = m.Machine(snap=1 << 24, pages=pages, ram=m.words("0000006f").ljust(4096 * pages, b"\0"))
    frames = [(1, m.BOOT, m.u64(0) + state.root())]
    room = (1 << 26) - len(m.put_segment(1, bytes(32), state, frames))
    frames += [(2 + i, m.CONIN, m.u64(0) + b"a") for i in range(room // 22)]
    hashes = m.chain_of(bytes(32), frames)
    key = m.Key(5, 4, bytes(range(16)), b"\x33" * 32)
    numbers = range(len(frames) - 511, len(frames) + 1)
    signed = [m.put_auth(n, hashes[n], key.sign(n % 32, m.signed_text(n, hashes[n]))) for n in numbers]
    count = (1 << 24) // len(signed[0])
    put(folder, "long.seg", m.put_segment(1, bytes(32), state, frames))
    put(folder, "long.key", key.public())
    put(folder, "long.auths", b"".join(signed[i % 512] for i in range(count)))
    words = ["audit", "--segment", "long.seg", "--key", "long.key", "--auths", "long.auths", "--evidence", "e"]
    took, line, peak = run(program, words, folder)
    print("longest: %s; %d entries, %d authenticators in %.1f s, %.0f MiB" % (line, len(frames), count, took, peak))


def replay(program, machine, folder, steps):
    """The audit of the loop's segment, beside as many steps of the machine without a log."""
    _, line, peak = run(program, ["audit", "--segment", "loop.seg"], folder)
    took, _ = best(3, [os.path.abspath(program), "audit", "--segment", "loop.seg"], folder)
    alone, _ = best(3, [os.path.abspath(machine)], folder, b"step moves %d\n" % steps)
    print("replay: %s; %d steps in %.2f s, %.1f million a second, %.0f MiB; steps alone %.1f million a second; ratio %.2f"
          % (line, steps, took, steps / took / 1e6, peak, steps / alone / 1e6, alone / took))


def viewing(program, folder, count):
    """The state at the last count beside the audit that gets there."""
    audit, _ = best(3, [os.path.abspath(program), "audit", "--segment", "loop.seg"], folder)
    view, text = best(3, [os.path.abspath(program), "view", "--segment", "loop.seg", "--count", str(count)], folder)
    print("view: %s in %.2f s, its audit in %.2f s; ratio %.2f" % (text.split("\n")[0], view, audit, view / audit))


def main():
    program, peer, machine, hash_program, folder = sys.argv[1:6]
    steps = int(sys.argv[6]) if len(sys.argv) > 6 else 10_000_000
    many = int(sys.argv[7]) if len(sys.argv) > 7 else 12557
    os.makedirs(folder, exist_ok=True)
    image = m.words(LOOP)
    state = m.Machine(snap=1 << 20, pages=256, ram=image.ljust(4096 * 256, b"\0"))
    frames = fast_frames(state, steps)
    put(folder, "loop.seg", m.put_segment(1, bytes(32), state, frames))
    last = int.from_bytes(frames[-1][2][:8], "big")
    replay(program, machine, folder, last)
    viewing(program, folder, last)
    authenticators(program, peer, folder, many)
    short_entries(program, hash_program, folder)
    longest(program, folder)


if __name__ == "__main__":
    main()
