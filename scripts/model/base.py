"""Numbers, hashes and a cursor over bytes."""
import hashlib
import struct

RUNNING, WAITING, HALTED = 0, 1, 2
BOOT, SNAP, CONIN, CLOCK, RECV, ACKED, OUT, SEND, HALT = range(1, 10)
NAMES = "? BOOT SNAP CONIN CLOCK RECV ACKED OUT SEND HALT".split()
INPUTS = (CONIN, CLOCK, RECV, ACKED)
STATUS = ("running", "waiting", "halted")
M32 = 0xffffffff
ZERO = bytes(32)
BASE = 0x80000000
PAGE = 4096
PAGE_COUNTS = [1 << i for i in range(13)]


def sha(*parts):
    return hashlib.sha256(b"".join(parts)).digest()


def u8(n):
    return struct.pack(">B", n)


def u16(n):
    return struct.pack(">H", n)


def u32(n):
    return struct.pack(">I", n)


def u64(n):
    return struct.pack(">Q", n)


def number(data):
    return int.from_bytes(data, "big")


def words(text):
    """The bytes of a guest's words, given in hex."""
    return b"".join(struct.pack("<I", int(w, 16)) for w in text.split())


def need(ok):
    """Refuses what stands outside a grammar."""
    if not ok:
        raise ValueError("outside")


class Reader:
    def __init__(self, data):
        self.data, self.at = data, 0

    def take(self, n):
        if self.at + n > len(self.data):
            raise ValueError("short")
        self.at += n
        return self.data[self.at - n:self.at]

    def number(self, n):
        return int.from_bytes(self.take(n), "big")

    def rest(self):
        return self.data[self.at:]

    def end(self):
        if self.at != len(self.data):
            raise ValueError("behind")


def read(reader, *given):
    """What a reader of a grammar gives, or None outside it."""
    try:
        return reader(*given)
    except ValueError:
        return None
