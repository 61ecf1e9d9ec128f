"""Evidence against a store: a pair that it never bound, or the first unequal texts of equal hash."""
from .base import PAGE, sha
from .entries import chain_of, link_text, read_frames
from .machine import page_nodes
from .replay import Replay
from .segments import read_segment


class Uncovered(Exception):
    pass


def numbers_of(e):
    """All numbers of evidence: those of authenticators and of frames."""
    numbers = [a[0] for a in e["auths"]]
    if e["form"] == 2:
        numbers.append(e["start"])
    elif e["form"] == 3:
        numbers.append(read_segment(e["body"])[0])
    return numbers


def covers(journal, e):
    numbers = numbers_of(e)
    return all(n >= journal.first for n in numbers) and (journal.mark is None or all(n < journal.last for n in numbers))


def rebut(journal, e):
    """For evidence that holds against the key of a journal that replays: ("forged", k) or ("collision", ours, theirs)."""
    if not covers(journal, e):
        raise Uncovered
    bound = journal.bound()
    for k, (seq, h, _) in enumerate(e["auths"]):
        if (seq, h) not in bound:
            return "forged", k
    for ours, theirs in texts(journal, e):
        if ours != theirs:
            assert sha(ours) == sha(theirs)
            return "collision", ours, theirs
    raise AssertionError("two equal lists of texts")


def texts(journal, e):
    """The texts of both sides in the order in which they are compared."""
    mine = {f[0]: f for f in journal.frames()}
    if e["form"] == 2:
        state, before, frames = None, e["before"], read_frames(e["body"])
    else:
        _, before, state, frames = read_segment(e["body"])
    hashes = {frames[0][0] - 1: before}
    hashes.update(chain_of(before, frames))
    for seq, kind, content in reversed(frames):
        ours = mine[seq]
        yield link_text(journal.hashes[seq - 1], *ours), link_text(hashes[seq - 1], seq, kind, content)
        yield ours[2], content
    if state is not None:
        yield from state_texts(state_behind(journal, frames[0][0]), state)


def state_behind(journal, n):
    state = journal.start()
    replay = Replay(state)
    for seq, kind, content in journal.frames()[1:]:
        if seq <= n:
            assert replay.entry(kind, content)
    return state


def state_texts(ours, theirs):
    mine, other = page_nodes(bytes(ours.ram)), page_nodes(bytes(theirs.ram))
    yield b"\2" + ours.head() + mine[-1][0], b"\2" + theirs.head() + other[-1][0]
    yield from tree_texts(ours.ram, mine, theirs.ram, other, len(mine) - 1, 0)


def tree_texts(ram, mine, their_ram, other, row, place):
    if row == 0:
        yield tuple(b"\0" + bytes(r[PAGE * place:PAGE * place + PAGE]) for r in (ram, their_ram))
        return
    yield tuple(b"\1" + nodes[row - 1][2 * place] + nodes[row - 1][2 * place + 1] for nodes in (mine, other))
    for part in (2 * place, 2 * place + 1):
        yield from tree_texts(ram, mine, their_ram, other, row - 1, part)
