"""A customer's own side of the tour: Alice, peer 1 of the ledger, signs her orders and acknowledges what the ledger answers.
It stands for a machine of her own. By the independent model in ../scripts.

Usage: customer.py FOLDER public                      prints her public key in hex, for the ledger's configuration
       customer.py FOLDER order AT TEXT               prints a script line that brings the ledger a signed order
       customer.py FOLDER answer AT PACKETS PUBLIC    checks the ledger's last message in a packets file under its public key,
                                                      and prints it as a comment and a script line with the acknowledgement
Her log is kept in FOLDER/alice.log."""
import os
import sys

sys.path.insert(0, os.path.join(os.path.dirname(os.path.abspath(__file__)), "..", "scripts"))
import model as m  # noqa: E402
from model import u32, u64  # noqa: E402

LEDGER, ALICE = 0, 1
# The seed of a key is a secret; this one is printed for the tour alone.
KEY = m.Key(5, 4, b"alice of a tour.", b"\x0a" * 32)


class Log:
    def __init__(self, folder):
        self.path = os.path.join(folder, "alice.log")
        self.frames = m.read_frames(read(self.path)) if os.path.exists(self.path) else []

    def add(self, kind, body):
        """A new entry, signed; gives what a packet of it holds."""
        seq = len(self.frames) + 1
        before = m.chain_of(bytes(32), self.frames).get(seq - 1, bytes(32))
        content = u64(seq) + body
        self.frames.append((seq, kind, content))
        with open(self.path, "wb") as f:
            f.write(m.put_frames(self.frames))
        signed = m.signed_text(seq, m.link(before, seq, kind, content))
        return m.put_packet(1 if kind == m.SEND else 2, ALICE, seq, before, content, KEY.sign(seq - 1, signed))


def read(path):
    with open(path, "rb") as f:
        return f.read()


def messages(data):
    """The DATA packets to Alice in a packets file."""
    r, found = m.Reader(data), []
    while r.at < len(data):
        peer = r.number(4)
        packet = r.take(r.number(4))
        if peer == ALICE and packet[0] == 1:
            found.append(packet)
    return found


def main(words):
    log = Log(words[0])
    if words[1] == "public":
        print(KEY.public().hex())
    elif words[1] == "order":
        number = 1 + sum(kind == m.SEND for _, kind, _ in log.frames)
        packet = log.add(m.SEND, u32(LEDGER) + u64(number) + words[3].encode())
        print("# alice: %s\nat %s packet %s" % (words[3], words[2], packet.hex()))
    elif words[1] == "answer":
        given = messages(read(words[3]))[-1]
        packet = m.read_packet(given)
        if packet["from"] != LEDGER or not m.authentic(read(words[4]), packet, m.SEND):
            raise SystemExit("the ledger's message isn't signed by its key")
        print("# the ledger answered: " + m.read_content(m.SEND, packet["content"])["payload"].decode())
        print("at %s packet %s" % (words[2], log.add(m.RECV, given).hex()))
    else:
        raise SystemExit(__doc__)


if __name__ == "__main__":
    main(sys.argv[1:])
