"""Makes the log of a cheating operator: a segment with other words in its outputs, and its last entry signed by the operator's
own key. By the independent model in ../scripts.

Usage: cheat.py SEGMENT KEY LEAF SEGMENT_OUT AUTHS_OUT OLD NEW [OLD NEW ..]
KEY is the private key file, LEAF a leaf of it that the store hasn't used. Each OLD becomes NEW in what the log says that the
guest printed and sent."""
import os
import sys

sys.path.insert(0, os.path.join(os.path.dirname(os.path.abspath(__file__)), "..", "scripts"))
import model as m  # noqa: E402


def read(path):
    with open(path, "rb") as f:
        return f.read()


def put(path, data):
    with open(path, "wb") as f:
        f.write(data)


def main(words):
    start, before, state, frames = m.read_segment(read(words[0]))
    key, leaf = m.read_private(read(words[1])), int(words[2])
    pairs = [(old.encode(), new.encode()) for old, new in zip(words[5::2], words[6::2])]
    claimed = []
    for seq, kind, content in frames:
        if kind in (m.OUT, m.SEND):
            for old, new in pairs:
                content = content.replace(old, new)
        claimed.append((seq, kind, content))
    last = claimed[-1][0]
    h = m.chain_of(before, claimed)[last]
    put(words[3], m.put_segment(start, before, state, claimed))
    put(words[4], m.put_auth(last, h, key.sign(leaf, m.signed_text(last, h))))
    changed = [str(a[0]) for a, b in zip(frames, claimed) if a != b]
    print("entries changed: " + " ".join(changed))


if __name__ == "__main__":
    main(sys.argv[1:])
