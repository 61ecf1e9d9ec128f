"""Heads, segments and images."""
from .base import BASE, BOOT, HALTED, PAGE, PAGE_COUNTS, SNAP, WAITING, Reader, need, u32, u64
from .entries import put_frames, read_frames, runs_on
from .lms import has_types
from .machine import Machine


def read_head(head, pages=None):
    """The machine of a head, over these bytes of RAM or zeros."""
    r = Reader(head)
    m = Machine()
    m.version = r.number(1)
    need(m.version in (1, 2))
    m.own, m.snap, count = r.number(1), r.number(4), r.number(4)
    need(m.own < 16 and 1024 <= m.snap <= 1 << 24 and count in PAGE_COUNTS)
    m.peers = []
    low = 0
    for _ in range(r.number(1)):
        p = {"id": r.number(1), "key": r.take(56), "sent": r.number(8), "acked": r.number(8), "received": r.number(8)}
        need(low <= p["id"] < 16 and p["id"] != m.own and p["received"] < 1 << 62)
        need(p["acked"] == p["sent"] or p["acked"] + 1 == p["sent"])
        need(has_types(p["key"]))
        low = p["id"] + 1
        m.peers.append(p)
    m.x = [0] + [r.number(4) for _ in range(31)]
    m.pc, m.count, m.status, m.latch = r.number(4), r.number(8), r.number(1), r.number(4)
    need(m.pc % 4 == 0 and m.count < 1 << 62 and m.status <= 2)
    need(all(p["sent"] <= m.count for p in m.peers))
    m.line = r.take(r.number(1))
    m.console = r.take(r.number(2))
    m.messages = [(r.number(1), r.take(r.number(2))) for _ in range(r.number(1))]
    need(len(m.line) <= 127 and 10 not in m.line and len(m.console) <= 1024 and len(m.messages) <= 8)
    need(all(len(t) <= 1024 and m.row(p) for p, t in m.messages))
    need(m.status != HALTED or not m.line)
    need(m.status != WAITING or not m.console and not m.messages)
    m.tx_peer, m.tx_len, m.tx_res = r.number(4), r.number(4), r.number(4)
    need(m.tx_res <= 3)
    m.window = bytearray(r.take(1024))
    if m.version == 2:
        m.vector, m.saved, m.bell = r.number(4), r.number(4), r.number(1)
        need(m.vector % 4 == 0 and m.saved % 4 == 0 and m.bell <= 2)
    r.end()
    m.ram = bytearray(pages if pages is not None else PAGE * count)
    need(len(m.ram) == PAGE * count)
    return m


def pages_of(head):
    """The page count that stands in a head, whatever stands around it."""
    need(len(head) >= 10)
    pages = int.from_bytes(head[6:10], "big")
    need(pages in PAGE_COUNTS)
    return pages


def read_segment(data):
    need(len(data) <= 1 << 26)
    r = Reader(data)
    need(r.take(5) == b"AVMS\x01")
    start, before = r.number(8), r.take(32)
    head = r.take(r.number(4))
    body = r.take(PAGE * pages_of(head))
    state = read_head(head, body)
    frames = read_frames(r.rest())
    need(frames and runs_on(frames, start))
    need(frames[0][1] == (BOOT if start == 1 else SNAP) and (start != 1 or before == bytes(32)))
    need(all(f[1] != BOOT for f in frames[1:]) and sum(f[1] == SNAP for f in frames) <= 64)
    return start, before, state, frames


def put_segment(start, before, state, frames):
    head = state.head()
    return (b"AVMS\x01" + u64(start) + before + u32(len(head)) + head + bytes(state.ram) + put_frames(frames))


# ---- images

def load_image(image, pages):
    """The RAM and the entry of an image, or the name of its refusal."""
    size = PAGE * pages
    if image[:4] != b"\x7fELF":
        if not image:
            return "Empty"
        return "TooLong" if len(image) > size else (image.ljust(size, b"\0"), BASE)
    headers = elf_headers(image)
    if isinstance(headers, str):
        return headers
    for i, (kind, offset, address, filesz, memsz) in enumerate(headers):
        if kind == 1 and memsz and not (BASE <= address and address + memsz <= BASE + size):
            return "Outside(%d)" % i
    entry = int.from_bytes(image[24:28], "little")
    if entry % 4 or not BASE <= entry < BASE + size:
        return "Entry"
    ram = bytearray(size)
    for kind, offset, address, filesz, memsz in headers:
        if kind == 1 and memsz:
            ram[address - BASE:address - BASE + memsz] = image[offset:offset + filesz].ljust(memsz, b"\0")
    return bytes(ram), entry


def elf_headers(image):
    if len(image) < 52 or image[:7] != b"\x7fELF\x01\x01\x01":
        return "NotElf"
    le = lambda at, n: int.from_bytes(image[at:at + n], "little")
    if le(16, 2) != 2 or le(18, 2) != 243:
        return "NotRiscv32"
    if le(36, 4) & 1:
        return "Compressed"
    phoff, size, count = le(28, 4), le(42, 2), le(44, 2)
    if size != 32 or not 1 <= count <= 64 or phoff + 32 * count > len(image):
        return "Headers"
    headers = []
    for i in range(count):
        at = phoff + 32 * i
        headers.append((le(at, 4), le(at + 4, 4), le(at + 8, 4), le(at + 16, 4), le(at + 20, 4)))
    for i, (kind, offset, address, filesz, memsz) in enumerate(headers):
        if kind == 1 and (filesz > memsz or filesz and offset + filesz > len(image)):
            return "Segment(%d)" % i
    return headers


def image_fault(image):
    """Whether the image is refused as a file, whatever RAM there is."""
    if image[:4] != b"\x7fELF":
        return not image
    return isinstance(elf_headers(image), str)


def is_image(state, start, image):
    """Whether the state is the image's initial state under its own version, id, K, page count and peers."""
    loaded = load_image(image, len(state.ram) // PAGE)
    if start != 1 or isinstance(loaded, str):
        return False
    peers = [dict(p, sent=0, acked=0, received=0) for p in state.peers]
    boot = Machine(state.own, state.snap, peers=peers, ram=loaded[0], pc=loaded[1], version=state.version)
    return boot.head() == state.head() and boot.ram == state.ram
