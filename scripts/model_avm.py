#!/usr/bin/env python3
"""The independent model as a program: the words, files and lines of `avm`. It stands in for it where that isn't built, for
example in the tour: AVM=scripts/model_avm.py examples/tour.sh. It is slow, and syncs nothing."""
import os
import sys

sys.dont_write_bytecode = True
sys.path.insert(0, os.path.dirname(os.path.abspath(__file__)))
import model as m  # noqa: E402


class Files(dict):
    """Real files, read where they are asked for."""

    def __init__(self):
        super().__init__()
        self.found = {}

    def __missing__(self, name):
        with open(name, "rb") as f:
            self.found[name] = self[name] = f.read()
        return self[name]

    def __contains__(self, name):
        return super().__contains__(name) or os.path.isfile(name)

    def get(self, name, default=None):
        return self[name] if name in self else default

    def setdefault(self, name, default=None):
        return self[name] if name in self else super().setdefault(name, default)

    def save(self):
        for name, data in self.items():
            if self.found.get(name) != data:
                with open(name, "wb") as f:
                    f.write(data)


def main():
    files = Files()
    printed, status = m.avm(sys.argv[1:], files)
    files.save()
    sys.stdout.write(printed)
    return status


if __name__ == "__main__":
    sys.exit(main())
