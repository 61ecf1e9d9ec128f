"""Gives every command drawn bytes: files of drawn stories with bytes changed, inserted, removed or cut, and stores whose parts are
left out, repeated or bent. Lines, statuses and every byte that is left are held against the model, and the time against a bound
that is linear in the bytes.

Usage: hostile.py PROGRAM FOLDER [SEED [CASES]]. Equal seeds give equal cases."""
import random
import sys
import time

import both
import compare_commands
import model as m
import stories

LONGEST_RUN = 200000


def corpus(r, count):
    """Command lines with the files that they read, of stories told by the model alone and of the commands with two levels of keys."""
    found = []
    for _ in range(count):
        story = stories.Story(r)
        for n in range(12):
            words = story.begin() if n == 0 else story.next()
            found.append((story.version == 2, words, named(words, story.files)))
            story.after(words, m.avm(words, story.files))
    files = compare_commands.good_files()
    for command in compare_commands.GIVEN:
        words = compare_commands.line(command)
        found += [(False, words, named(words, files))] * (1 if command in ("keygen", "list", "format") else 6)
    return found


def named(words, files):
    return {name: files[name] for name in words[2::2] if name in files}


def place(r, data):
    """Most places are in front of a snapshot's pages or behind them."""
    return r.choice([r.randrange(min(len(data), 160)), max(0, len(data) - 1 - r.randrange(min(len(data), 4000))), r.randrange(len(data))])


def bent(r, data):
    for _ in range(r.choice([1, 1, 1, 2, 4])):
        if not data:
            return r.randbytes(r.randrange(1, 5))
        at, n = place(r, data), r.choice([1, 1, 2, 4, 8, 60])
        way = r.randrange(7)
        if way == 0:
            data = data[:at] + r.randbytes(n) + data[at:]
        elif way == 1:
            data = data[:at] + data[at + n:]
        elif way == 2:
            data = data[:at]
        elif way == 3:
            data = data[:at] + data[at:at + n] + data[at:]
        elif way == 4:
            data = data[:at] + bytes([r.choice([0, 1, 2, 255, 10, 32, 48, 57])]) + data[at + 1:]
        else:
            data = data[:at] + bytes([data[at] ^ 1 << r.randrange(8)]) + data[at + 1:]
    return data


def bent_store(r, data):
    """A store with a part left out, repeated, moved or changed, in the spelling of stores."""
    try:
        journal = m.journal_of(data)
    except (ValueError, m.Damaged):
        return bent(r, data)
    records = [list(record) for record in journal.records]
    for _ in range(r.choice([1, 1, 2])):
        record = r.choice(records)
        i, way = r.randrange(len(record)), r.randrange(7)
        part = record[i]
        if way == 0:
            del record[i]
        elif way == 1:
            record.insert(i, part)
        elif way == 2:
            r.choice(records).append(part)
        elif way == 3:
            records.remove(record)
        elif way == 4:
            record.insert(i, r.choice([(m.SEAL,), (m.MARK, r.randrange(9))]))
        elif part[0] == m.ENTRY:
            record[i] = part[0], part[1] + r.choice([0, 0, 0, 1]), r.choice([part[2]] * 9 + [m.SNAP]), bent(r, part[3])
        elif part[0] == m.KEEP:
            record[i] = part[0], part[1], bent(r, part[2]) if r.random() < 0.5 else part[2], part[3][1:] + [(n ^ 1, p) for n, p in part[3][:1]]
        records = [record for record in records if record]
        if not records:
            break
    journal.records = records
    for c in journal.carried:
        if r.random() < 0.3:
            c.leaf, c.before = c.leaf + r.choice([0, 1, -1]) & 0xff, bent(r, c.before)[:32].ljust(32, b"\0")
    return m.put_journal(journal)


def is_long(name, data):
    """Whether a file would only make a run long: a script with a far end, or a key with many leaves."""
    script, key = m.read(m.read_script, data) if name == "script" else None, data[:5] == b"AVMK\x01" and data[5:9] != m.u32(5)
    return script is not None and script.end > LONGEST_RUN or key


def main():
    seed = int(sys.argv[3]) if len(sys.argv) > 3 else time.time_ns() % 10 ** 6
    cases = int(sys.argv[4]) if len(sys.argv) > 4 else 2000
    print("hostile: seed %d, %d cases" % (seed, cases), flush=True)
    r, c = random.Random(seed), both.Both(sys.argv[1], sys.argv[2])
    given = corpus(r, 8 + cases // 50)
    for n in range(cases):
        bell, words, files = r.choice(given)
        files = dict(files)
        if files and r.random() < 0.97:
            name = r.choice(sorted(files))
            way = bent_store if files[name][:4] == b"AVMJ" and r.random() < 0.5 else bent
            data = way(r, files[name])
            if is_long(name, data):
                continue
            files[name] = data
        elif files:
            files.pop(r.choice(sorted(files)))
        c.bell = bell
        c.both("hostile: seed %d, case %d" % (seed, n), words, files)
    print("hostile: slowest %.2f s" % c.slowest)
    return c.end("hostile: ")


if __name__ == "__main__":
    sys.exit(main())
