"""The guest's state at any count of a segment that replays."""
from .base import BASE, INPUTS, STATUS, read
from .entries import count_of
from .replay import first_fault
from .segments import read_segment
from .verdict import is_committed


class ViewRefused(Exception):
    """malformed, uncommitted, uncovered N or range."""


class View:
    def __init__(self, segment):
        given = read(read_segment, segment)
        if given is None:
            raise ViewRefused("malformed")
        _, _, self.state, frames = given
        if not is_committed(self.state, frames[0]):
            raise ViewRefused("uncommitted")
        n = first_fault(self.state.copy(), frames[1:])
        if n is not None:
            raise ViewRefused("uncovered %d" % n)
        self.inputs = [(k, c) for _, k, c in frames[1:] if k in INPUTS]
        self.first, self.last = self.state.count, count_of(frames[-1][2])

    def counts(self, to):
        """Goes through the counts up to `to` as the run does, and gives a machine at each, before its inputs."""
        m, inputs = self.state.copy(), list(self.inputs)
        yield m
        while m.count < to:
            while inputs and count_of(inputs[0][1]) == m.count:
                m.take(*inputs.pop(0))
            m.step()
            yield m

    def at(self, count):
        if not self.first <= count <= self.last:
            raise ViewRefused("range")
        m, inputs = self.state.copy(), list(self.inputs)
        while m.count < count:
            while inputs and count_of(inputs[0][1]) == m.count:
                m.take(*inputs.pop(0))
            m.advance(min([count] + [count_of(c) for _, c in inputs[:1]]))
        return m

    def in_ram(self, at, n):
        if at % 4 or not self.state.in_ram(at, 4 * n):
            raise ViewRefused("range")


def word_at(m, at):
    return int.from_bytes(m.ram[at - BASE:at - BASE + 4], "little")


def state_lines(view, count, at=None, n=0):
    m = view.at(count)
    if n:
        view.in_ram(at, n)
    lines = ["count %d pc %08x %s" % (count, m.pc, STATUS[m.status])]
    lines += ["x%d %08x" % (i, v) for i, v in enumerate(m.x) if v]
    return lines + ["%08x %08x" % (at + 4 * i, word_at(m, at + 4 * i)) for i in range(n)]


def change_lines(view, at):
    view.in_ram(at, 1)
    lines, old = [], None
    for m in view.counts(view.last):
        new = word_at(m, at)
        if old is not None and new != old:
            lines.append("%d %08x %08x" % (m.count, old, new))
        old = new
    return lines
