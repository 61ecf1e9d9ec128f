"""The table of a gate's time (see gate_time.sh). The gate prints no times, so the time is that of the prover's processes, which
are looked at twice a second while it runs: each has its crate's name in its words, a word for tests, and its folder, which for an
edit is one of its own."""
import os
import re
import sys
import threading
import time

KINDS = ("proof", "tests", "edits")
TITLE = "gate time, minutes"
TICK = os.sysconf("SC_CLK_TCK")


def read(path):
    with open(path, "rb") as f:
        return f.read()


class Watch(threading.Thread):
    """Keeps the most processor time seen of each prover's process below the gate's, with its children's, and when it was first and
    last seen."""

    def __init__(self, top):
        super().__init__(daemon=True)
        self.top, self.seen, self.names, self.is_over = top, {}, {}, threading.Event()

    def run(self):
        while not self.is_over.wait(0.5):
            try:
                self.look()
            except OSError:
                pass

    def look(self):
        parents, times = {}, {}
        for pid in filter(str.isdigit, os.listdir("/proc")):
            try:
                fields = read("/proc/%s/stat" % pid).rpartition(b")")[2].split()
            except OSError:
                continue
            # after the name: 1 parent, 11 and 12 processor time, 13 and 14 that of children waited for, 19 the start
            parents[pid] = fields[1].decode()
            times[pid] = sum(int(fields[at]) for at in (11, 12, 13, 14)), fields[19]
        children = {}
        for pid, parent in parents.items():
            children.setdefault(parent, []).append(pid)

        def whole(pid):
            """Its own time, and that of its children, waited for or still running."""
            return times[pid][0] + sum(whole(child) for child in children.get(pid, []))

        now = time.time()
        for pid, (_, start) in times.items():
            name = self.name_of(pid, start)
            parent = parents[pid]
            if name and self.is_below(pid, parents) and not (parent in times and self.name_of(parent, times[parent][1])):
                _, most, first, _ = self.seen.get((pid, start), (None, 0, now, now))
                self.seen[pid, start] = name, max(most, whole(pid)), first, now

    def name_of(self, pid, start):
        """The crate and the kind of a prover's process, or None."""
        if (pid, start) not in self.names:
            try:
                words = read("/proc/%s/cmdline" % pid).decode("utf-8", "replace").split("\0")
                folder = os.readlink("/proc/%s/cwd" % pid)
            except OSError:
                return None
            self.names[pid, start] = None
            if "--crate-name" in words[:-1] and os.path.basename(words[0]) == "rattle":
                crate = words[words.index("--crate-name") + 1]
                kind = "edits" if os.path.basename(folder) != crate else "tests" if "--test" in words else "proof"
                self.names[pid, start] = crate, kind
        return self.names[pid, start]

    def is_below(self, pid, parents):
        while pid in parents and pid != "0":
            if pid == self.top:
                return True
            pid = parents[pid]
        return False

    def table(self):
        """Processor and wall minutes by crate and kind, and the whole's."""
        used, spans = {}, {}
        for (crate, kind), ticks, first, last in self.seen.values():
            used[crate, kind] = used.get((crate, kind), 0) + ticks / TICK / 60
            spans.setdefault((crate, kind), []).append((first, last))
        return used, {key: covered(parts) / 60 for key, parts in spans.items()}


def covered(parts):
    """How many seconds are in one of the spans at least."""
    total, end = 0.0, 0.0
    for first, last in sorted(parts):
        total += max(0.0, last - max(first, end))
        end = max(end, last)
    return total


def print_table(used, wall, minutes):
    if not used:
        return
    print("\n%s: processor (wall)" % TITLE)
    print("%-16s %17s %17s %17s %9s" % (("crate",) + KINDS + ("all",)))
    crates = sorted({crate for crate, _ in used}, key=lambda c: -sum(used.get((c, k), 0) for k in KINDS))
    cell = lambda crate, kind: "%.1f (%.1f)" % (used[crate, kind], wall[crate, kind]) if (crate, kind) in used else "-"
    for crate in crates:
        whole = sum(used.get((crate, kind), 0) for kind in KINDS)
        print("%-16s %17s %17s %17s %9.1f" % ((crate,) + tuple(cell(crate, kind) for kind in KINDS) + (whole,)))
    sums = [sum(used.get((crate, kind), 0) for crate in crates) for kind in KINDS]
    print("%-16s %17.1f %17.1f %17.1f %9.1f" % (("all",) + tuple(sums) + (sum(sums),)))
    print("the gate took %.1f minutes" % minutes)


def watched():
    # what stands on the other side of the pipe has the parent that this process has
    watch, start = Watch(str(os.getppid())), time.time()
    watch.start()
    for line in sys.stdin.buffer:
        sys.stdout.buffer.write(line)
        sys.stdout.buffer.flush()
    watch.is_over.set()
    watch.join()
    print_table(*watch.table(), (time.time() - start) / 60)


def of_file(path):
    text = read(path).decode("utf-8", "replace")
    at = text.rfind("\n" + TITLE)
    if at >= 0:
        table = text[at + 1:]
        end = re.search(r"the gate took .*\n", table)
        print(table[:end.end() if end else None], end="")
        return
    told = {}
    put = lambda crate, kind, word: told.setdefault(crate, {}).__setitem__(kind, word)
    for crate, what in re.findall(r"^rt: (\w+) (proved|NOT PROVED)", text, re.M):
        put(crate, "proof", what)
    for crate, what in re.findall(r"^rt: (\w+): its tests (?:are )?(\S.*)$", text, re.M):
        put(crate, "tests", what)
    for crate, what in re.findall(r"^rt: must-fail (\w+)/\S+: (refused|NOT REFUSED|BAD EDIT)", text, re.M):
        count = told.setdefault(crate, {}).setdefault("edits", {})
        count[what] = count.get(what, 0) + 1
    print("no minutes in this output: rt ci prints none, and it wasn't watched\n%-16s %17s %17s  %s" % (("crate",) + KINDS))
    for crate in sorted(told):
        edits = ", ".join("%d %s" % (n, what) for what, n in told[crate].get("edits", {}).items())
        print("%-16s %17s %17s  %s" % (crate, told[crate].get("proof", "-"), told[crate].get("tests", "-"), edits or "-"))


if __name__ == "__main__":
    of_file(sys.argv[1]) if len(sys.argv) > 1 else watched()
