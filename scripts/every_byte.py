"""Tables that are too long for a test: every prefix of a segment, and evidence with each of its bytes raised by one, on the program
as built.

Usage: every_byte.py PROGRAM FOLDER"""
import os
import subprocess
import sys
from concurrent.futures import ThreadPoolExecutor

EXAMPLES = os.path.join(os.path.dirname(os.path.abspath(__file__)), "..", "examples")


def example(name):
    with open(os.path.join(EXAMPLES, name), "rb") as f:
        return f.read()


class Runs:
    def __init__(self, program, folder):
        self.program, self.folder = os.path.abspath(program), folder
        os.makedirs(folder, exist_ok=True)

    def put(self, name, data):
        path = os.path.join(self.folder, name)
        with open(path, "wb") as f:
            f.write(data)
        return path

    def run(self, *words):
        done = subprocess.run([self.program, *words], capture_output=True, timeout=60)
        return done.stdout.decode("latin-1"), done.returncode


def prefix(runs, segment, length):
    """What is wrong with the answer on a prefix; the whole frames of the three entries end at these lengths."""
    name = runs.put("prefix%d" % length, segment[:length])
    last = {5390: 1, 5413: 2, 5442: 3}.get(length)
    want = ("accepted 1 to %d covered 0\n" % last, 0) if last else ("refused malformed\n", 2)
    got = runs.run("audit", "--segment", name)
    os.remove(name)
    return [] if got == want else ["prefix %d: expected %r, got %r" % (length, want, got)]


def raised(runs, evidence, key, at):
    changed = bytearray(evidence)
    changed[at] = (changed[at] + 1) % 256
    name = runs.put("raised%d" % at, changed)
    got = runs.run("check", "--key", key, "--evidence", name)
    os.remove(name)
    return [] if got == ("refused evidence\n", 2) else ["byte %d: got %r" % (at, got)]


def main():
    runs = Runs(*sys.argv[1:3])
    segment = example("hello.seg")
    names = [runs.put(name, example(name)) for name in ("cheat.seg", "owner.pub", "cheat.auths")]
    made = os.path.join(runs.folder, "evidence")
    if os.path.exists(made):
        os.remove(made)
    told = runs.run("audit", "--segment", names[0], "--key", names[1], "--auths", names[2], "--evidence", made)
    evidence = open(made, "rb").read()
    failed = [] if len(segment) == 5442 and told[1] == 1 else ["the examples aren't those: %d bytes, %r" % (len(segment), told)]
    with ThreadPoolExecutor(os.cpu_count()) as pool:
        for found in pool.map(lambda n: prefix(runs, segment, n), range(len(segment) + 1)):
            failed += found
        for found in pool.map(lambda n: raised(runs, evidence, names[1], n), range(len(evidence))):
            failed += found
    # as many authenticators as pass the limit of 2^24 bytes, each of which is one
    many = runs.put("many", example("cheat.auths") * (2 ** 24 // len(example("cheat.auths")) + 1))
    told = runs.run("audit", "--segment", names[0], "--key", names[1], "--auths", many, "--evidence", made)
    failed += [] if told == ("refused malformed\n", 2) else ["authenticators past their limit: got %r" % (told,)]
    for line in failed[:20]:
        print(line)
    print("every byte: %d prefixes, %d bytes of evidence, %d failed" % (len(segment) + 1, len(evidence), len(failed)))
    return 1 if failed else 0


if __name__ == "__main__":
    sys.exit(main())
