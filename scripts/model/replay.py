"""Replay: the run over all inputs, and the first entry that doesn't replay."""
from .base import BOOT, CLOCK, INPUTS, WAITING, u64
from .entries import count_of


def rerun(m, inputs, limit, most):
    """The entries of a run over these inputs, at most so many."""
    made = []
    while len(made) < most:
        if inputs and count_of(inputs[0][1]) == m.count and m.refusal(*inputs[0]) is None:
            m.take(*inputs[0])
            made.append(inputs[0])
            inputs = inputs[1:]
        elif m.can_step() and m.count < limit:
            made += m.step()
        else:
            break
    return made[:most]


def replays(state, frames):
    """The definition as it is read: the entries are the first of a run over their own inputs up to the last count."""
    if not frames:
        return True
    inputs = [(k, c) for _, k, c in frames if k in INPUTS]
    return [(k, c) for _, k, c in frames] == rerun(state.copy(), inputs, count_of(frames[-1][2]), len(frames))


class Replay:
    """Judges one entry after the other on a machine of its own. `outs` are outputs of the last step that no entry has told."""

    def __init__(self, state):
        self.m, self.outs = state, []

    def entry(self, kind, content):
        """Whether the entries so far replay with this one, where they did without."""
        m, count = self.m, count_of(content)
        if self.outs:
            return self.told(kind, content)
        if count < m.count or kind == BOOT:
            return False
        if kind in INPUTS:
            if m.advance(count) or m.count != count or m.refusal(kind, content) is not None:
                return False
            m.take(kind, content)
            return True
        self.outs = m.advance(count)
        return bool(self.outs) and self.told(kind, content)

    def told(self, kind, content):
        return self.outs.pop(0) == (kind, content)


def first_fault(state, frames, seen=None):
    """The number of the first entry that doesn't replay, or None. The state is moved on; `seen` gets each entry that does,
    with whether its step has told all of its outputs."""
    replay = Replay(state)
    for seq, kind, content in frames:
        if not replay.entry(kind, content):
            return seq
        if seen:
            seen(seq, replay)
    return None


# ---- a run for tests and tools

def run(machine, steps, inputs=()):
    """Frames behind BOOT of a run of `steps` steps; `inputs` are (count, kind, body)."""
    frames = [(1, BOOT, u64(0) + machine.root())]
    m, inputs = machine.copy(), list(inputs)
    while True:
        if inputs and inputs[0][0] <= m.count:
            _, kind, body = inputs.pop(0)
            content = u64(m.count) + body
            if m.refusal(kind, content) is None:
                m.take(kind, content)
                frames.append((len(frames) + 1, kind, content))
        elif m.asks() and m.clock is None:
            content = u64(m.count) + u64(1000 * m.count)
            m.take(CLOCK, content)
            frames.append((len(frames) + 1, CLOCK, content))
        elif m.can_step() and m.count < steps:
            for kind, content in m.advance(min([steps] + [i[0] for i in inputs[:1]])):
                frames.append((len(frames) + 1, kind, content))
        elif inputs and m.status == WAITING:
            inputs[0] = (m.count,) + inputs[0][1:]
        else:
            return frames, m
