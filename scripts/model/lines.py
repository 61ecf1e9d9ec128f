"""The lines of a store, and a verdict's words."""
from .base import ACKED, BOOT, CLOCK, CONIN, HALT, NAMES, OUT, RECV, SEND, SNAP
from .entries import read_content, read_packet
from .journal import ENTRY, SEAL


def item_lines(journal):
    lines, last = [], None
    for part in journal.parts():
        if part[0] == ENTRY:
            last = part[1]
            lines.append(entry_line(*part[1:]))
        elif part[0] == SEAL:
            lines.append("seal %d" % last)
    return lines + (["retired %d" % journal.mark] if journal.mark is not None else [])


def entry_line(seq, kind, content):
    c = read_content(kind, content)
    return " ".join(str(w) for w in [seq, NAMES[kind], c["count"]] + entry_words(kind, content, c))


def entry_words(kind, content, c):
    if kind in (BOOT, SNAP):
        return [c["root"].hex()]
    if kind in (CONIN, OUT):
        return [content[8:].hex()]
    if kind == CLOCK:
        return [c["value"]]
    if kind == RECV:
        return [c["packet"]["from"], read_content(SEND, c["packet"]["content"])["number"]]
    if kind == ACKED:
        inner = read_packet(c["packet"]["content"][8:])
        return [c["packet"]["from"], read_content(SEND, inner["content"])["number"]]
    if kind == SEND:
        return [c["peer"], c["number"]] + ([c["payload"].hex()] if c["payload"] else [])
    return [c["cause"], c["value"]]
