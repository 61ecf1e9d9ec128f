"""Runs command lines on the program and on the model over the same files, and holds what both print, answer and leave."""
import os
import shutil
import subprocess
import time

import compare
import model as m

NOT_BUILT = ("refused notbuilt\n", 2)
WORDS = ("refused words\n", 3)


class Both(compare.Comparison):
    def __init__(self, program, folder):
        super().__init__(program, os.path.join(folder, "both"))
        self.skipped, self.slowest, self.unbuilt = {}, 0.0, set()
        self.unbuilt = {words[0] for words in EXAMPLES if self.answers(words, {}) == WORDS}
        self.bell, self.without_bell = False, not self.has_bell()

    def answers(self, words, files):
        """What the program prints and answers on these files, which stand alone in the folder."""
        shutil.rmtree(self.folder, ignore_errors=True)
        os.makedirs(self.folder)
        for name, data in files.items():
            self.put(name, data)
        begun = time.time()
        done = subprocess.run([self.program, *words], cwd=self.folder, capture_output=True, timeout=300)
        took = time.time() - begun
        self.slowest = max(self.slowest, took)
        bound = 10 + sum(map(len, files.values())) / 2 ** 18
        if done.stderr or took > bound:
            self.failed.append("%s: took %.1f s, and told %r" % (" ".join(words), took, done.stderr[:200]))
        return done.stdout.decode("latin-1"), done.returncode

    def left(self):
        names = os.listdir(self.folder)
        return {name: open(os.path.join(self.folder, name), "rb").read() for name in names}

    def skip(self, words):
        self.skipped[words[0]] = self.skipped.get(words[0], 0) + 1

    def both(self, case, words, files):
        """Compares one command line; `files` become those that the model leaves. Gives what the model prints and answers.
        Where `bell` is set, the files have machines of version 2."""
        words, before = list(words), dict(files)
        want = m.avm(words, files)
        if words and words[0] in self.unbuilt or self.bell and self.without_bell:
            self.skip(words)
            return want
        got = self.answers(words, before)
        if got == NOT_BUILT:
            self.skip(words)
        elif got != want:
            self.failed.append("%s: %s: expected %r, got %r" % (case, " ".join(words)[:300], want, got))
        elif self.left() != files:
            left = self.left()
            differ = [name for name in sorted(set(left) | set(files)) if left.get(name) != files.get(name)]
            self.failed.append("%s: %s: other bytes in %s" % (case, " ".join(words)[:300], ", ".join(differ)))
        else:
            self.passed += 1
        return want

    def end(self, name=""):
        if self.skipped:
            told = ", ".join("%d of %s" % (n, command) for command, n in sorted(self.skipped.items()))
            print("%snot built yet, skipped: %s" % (name, told))
        return super().end(name)


# command lines of the commands that are no commands before they are built
EXAMPLES = [line.split() for line in ("retain --store a --into b --at 1", "roll --store a --key b",
                                      "enroll --store a --key b --public c --endorse d", "widen --endorse a --auths b --out c",
                                      "narrow --key a --auths b --public c --out d", "view --segment a --count 1")]
