"""A disk: its bytes, the calls since it was last synced as a whole, and the images that a crash among them leaves."""


class Disk:
    def __init__(self, data=b""):
        self.data = bytearray(data)
        self.start, self.calls = bytes(data), []

    def forget(self):
        """Counts calls from here on; everything is synced."""
        self.start, self.calls = bytes(self.data), []

    def read(self):
        self.calls.append(("read",))

    def write(self, at, data):
        self.calls.append(("write", at, bytes(data)))
        put(self.data, at, data)

    def sync(self):
        self.calls.append(("sync",))

    def image(self, calls, long, fill):
        """The image after the first `calls` calls: free bytes are `fill`, the length is the greatest or the least."""
        data, synced, reached, free = bytearray(self.start), len(self.start), len(self.start), []
        for call in self.calls[:calls]:
            if call[0] == "write":
                _, at, written = call
                put(data, at, written)
                free.append((at, at + len(written)))
                reached = max(reached, len(data))
            elif call[0] == "sync":
                synced, reached, free = len(data), len(data), []
        for first, last in free + [(synced, reached)]:
            data[first:last] = bytes([fill]) * (last - first)
        return bytes(data if long else data[:synced])


def put(data, at, written):
    if len(data) < at:
        data.extend(bytes(at - len(data)))
    data[at:at + len(written)] = written
