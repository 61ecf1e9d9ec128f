"""The machine: instructions, devices, inputs, the head and the roots."""
import sys

from .base import (ACKED, BASE, CLOCK, CONIN, HALT, HALTED, M32, OUT, PAGE, RECV, RUNNING, SEND, SNAP, WAITING, sha, u8,
                   u16, u32, u64)
from .entries import authentic, read_content, read_packet

assert sys.byteorder == "little", "the quick steps read words in the host's order"
IDLE, INSIDE, RUNG = 0, 1, 2


class Stop(Exception):
    """A halt, told before the instruction has changed anything."""

    def __init__(self, cause, value):
        self.cause, self.value = cause, value


def signed(v):
    return v - (1 << 32) if v >> 31 else v


def field(word, low, width):
    return word >> low & ((1 << width) - 1)


def extend(v, bits):
    return v - (1 << bits) if v >> (bits - 1) else v


def imm_b(w):
    return extend(w >> 31 << 12 | field(w, 7, 1) << 11 | field(w, 25, 6) << 5 | field(w, 8, 4) << 1, 13)


def imm_j(w):
    return extend(w >> 31 << 20 | field(w, 12, 8) << 12 | field(w, 20, 1) << 11 | field(w, 21, 10) << 1, 21)


def multiply(f3, a, b):
    sa, sb = signed(a), signed(b)
    if f3 < 4:
        return (sa * sb, sa * sb >> 32, sa * b >> 32, a * b >> 32)[f3]
    if b == 0:
        return (M32, M32, a, a)[f3 - 4]
    if f3 == 5:
        return a // b
    if f3 == 7:
        return a % b
    quotient = abs(sa) // abs(sb) * (1 if (sa < 0) == (sb < 0) else -1)
    return quotient if f3 == 4 else sa - quotient * sb


class Machine:
    def __init__(self, own=0, snap=1024, pages=1, peers=(), ram=None, pc=BASE, version=1):
        self.version, self.own, self.snap, self.peers = version, own, snap, [dict(p) for p in peers]
        self.ram = bytearray(ram) if ram is not None else bytearray(PAGE * pages)
        self.x, self.pc, self.count, self.status = [0] * 32, pc, 0, RUNNING
        self.latch, self.clock = 0, None
        self.line, self.console, self.messages = b"", b"", []
        self.tx_peer = self.tx_len = self.tx_res = 0
        self.window = bytearray(1024)
        self.vector, self.saved, self.bell = 0, 0, IDLE
        self.dirty = set()

    def copy(self):
        other = Machine.__new__(Machine)
        other.__dict__.update(self.__dict__)
        other.peers = [dict(p) for p in self.peers]
        other.ram, other.window = bytearray(self.ram), bytearray(self.window)
        other.x, other.messages, other.dirty = list(self.x), list(self.messages), set(self.dirty)
        return other

    def row(self, peer):
        return next((p for p in self.peers if p["id"] == peer), None)

    # memory and devices
    def in_ram(self, a, n):
        return BASE <= a and a + n <= BASE + len(self.ram)

    def load(self, a, n):
        if a % n:
            raise Stop(5, a)
        if self.in_ram(a, n):
            i = a - BASE
            return int.from_bytes(self.ram[i:i + n], "little")
        got = self.device_load(a) if n == 4 else None
        if got is None:
            raise Stop(7, a)
        return got

    def device_load(self, a):
        if a == 0x10000004:
            if not self.console:
                return M32
            byte, self.console = self.console[0], self.console[1:]
            return byte
        if a == 0x10000008:
            value, self.clock = self.clock, None
            self.latch = value >> 32
            return value & M32
        if a == 0x1000000c:
            return self.latch
        if a == 0x10000014:
            return len(self.messages[0][1]) if self.messages else M32
        if a == 0x10000018:
            return self.messages[0][0] if self.messages else M32
        if a == 0x10000020:
            return self.tx_peer
        if a == 0x10000024:
            return self.tx_len
        if a == 0x1000002c:
            return self.tx_res
        if a == 0x10000030 and self.version == 2:
            return self.vector
        if a == 0x10000034 and self.version == 2:
            return self.saved
        if 0x10001000 <= a < 0x10001400:
            shown = (self.messages[0][1] if self.messages else b"").ljust(1024, b"\0")
            return int.from_bytes(shown[a - 0x10001000:][:4], "little")
        if 0x10002000 <= a < 0x10002400:
            return int.from_bytes(self.window[a - 0x10002000:][:4], "little")
        return None

    def store(self, a, n, v):
        if a % n:
            raise Stop(6, a)
        if self.in_ram(a, n):
            i = a - BASE
            self.ram[i:i + n] = (v & ((1 << 8 * n) - 1)).to_bytes(n, "little")
            self.dirty.add(i // PAGE)
            return
        if n != 4 or not self.device_store(a, v):
            raise Stop(8, a)

    def device_store(self, a, v):
        if a == 0x10000000:
            self.line += bytes([v & 255])
        elif a == 0x10000010:
            self.waits = not self.console and not self.messages
        elif a == 0x1000001c:
            self.messages = self.messages[1:]
        elif a == 0x10000020:
            self.tx_peer = v
        elif a == 0x10000024:
            self.tx_len = v
        elif a == 0x10000028:
            self.try_to_send()
        elif a == 0x10000030 and self.version == 2:
            self.vector = v & ~3
        elif a == 0x10000038 and self.version == 2:
            self.returns = self.bell != IDLE
        elif 0x10002000 <= a < 0x10002400 and a % 4 == 0:
            self.window[a - 0x10002000:a - 0x10002000 + 4] = v.to_bytes(4, "little")
        else:
            return False
        return True

    def try_to_send(self):
        row = self.row(self.tx_peer)
        if row is None:
            self.tx_res = 1
        elif self.tx_len > 1024:
            self.tx_res = 2
        elif row["sent"] != row["acked"]:
            self.tx_res = 3
        else:
            self.tx_res = 0
            row["sent"] += 1
            self.send = (self.tx_peer, row["sent"], bytes(self.window[:self.tx_len]))

    # one instruction
    def word(self):
        if not self.in_ram(self.pc, 4):
            raise Stop(9, self.pc)
        return int.from_bytes(self.ram[self.pc - BASE:self.pc - BASE + 4], "little")

    def asks(self):
        if self.status != RUNNING or not self.in_ram(self.pc, 4):
            return False
        w = self.word()
        return (field(w, 0, 7) == 3 and field(w, 12, 3) == 2
                and (self.x[field(w, 15, 5)] + extend(w >> 20, 12)) & M32 == 0x10000008)

    def can_step(self):
        return self.status == RUNNING and (not self.asks() or self.clock is not None)

    def put(self, rd, v):
        if rd:
            self.x[rd] = v & M32

    def jump(self, target):
        if target % 4:
            raise Stop(4, target)
        self.next = target

    def execute(self):
        w = self.word()
        op, rd, f3, rs1, rs2, f7 = (field(w, 0, 7), field(w, 7, 5), field(w, 12, 3), field(w, 15, 5), field(w, 20, 5),
                                    w >> 25)
        a, b, pc = self.x[rs1], self.x[rs2], self.pc
        imm_i = extend(w >> 20, 12)
        self.next = (pc + 4) & M32
        if op == 0x37:
            self.put(rd, w & 0xfffff000)
        elif op == 0x17:
            self.put(rd, pc + (w & 0xfffff000))
        elif op == 0x6f:
            self.jump(pc + imm_j(w) & M32)
            self.put(rd, pc + 4)
        elif op == 0x67 and f3 == 0:
            self.jump(a + imm_i & M32 & ~1)
            self.put(rd, pc + 4)
        elif op == 0x63 and f3 not in (2, 3):
            taken = {0: a == b, 1: a != b, 4: signed(a) < signed(b), 5: signed(a) >= signed(b), 6: a < b, 7: a >= b}[f3]
            if taken:
                self.jump(pc + imm_b(w) & M32)
        elif op == 0x03 and f3 in (0, 1, 2, 4, 5):
            n = (1, 2, 4)[f3 & 3]
            v = self.load(a + imm_i & M32, n)
            self.put(rd, extend(v, 8 * n) if f3 < 2 else v)
        elif op == 0x23 and f3 < 3:
            imm = extend(w >> 25 << 5 | rd, 12)
            self.store(a + imm & M32, (1, 2, 4)[f3], b)
        elif op == 0x13 and (f3 not in (1, 5) or f7 == 0 or f7 == 0x20 and f3 == 5):
            v = {0: a + imm_i, 1: a << rs2, 2: int(signed(a) < imm_i), 3: int(a < imm_i & M32), 4: a ^ imm_i,
                 5: signed(a) >> rs2 if f7 else a >> rs2, 6: a | imm_i, 7: a & imm_i}[f3]
            self.put(rd, v)
        elif op == 0x33 and f7 == 1:
            self.put(rd, multiply(f3, a, b))
        elif op == 0x33 and (f7 == 0 or f7 == 0x20 and f3 in (0, 5)):
            s = b & 31
            v = {0: a - b if f7 else a + b, 1: a << s, 2: int(signed(a) < signed(b)), 3: int(a < b), 4: a ^ b,
                 5: signed(a) >> s if f7 else a >> s, 6: a | b, 7: a & b}[f3]
            self.put(rd, v)
        elif op == 0x0f and f3 == 0:
            pass
        elif w == 0x73:
            raise Stop(1, self.x[10])
        elif w == 0x100073:
            raise Stop(2, pc)
        else:
            raise Stop(3, w)
        self.pc = self.next

    def return_from_handler(self):
        if self.bell == RUNG and self.vector:
            self.pc, self.bell = self.vector, INSIDE
        else:
            self.pc, self.bell = self.saved, IDLE

    def step(self):
        """One step; gives the outputs as (kind, content) in order."""
        self.send, self.waits, self.returns, halt = None, False, False, None
        try:
            self.execute()
        except Stop as stop:
            halt = stop
        if self.returns:
            self.return_from_handler()
        self.count += 1
        outs, at = [], u64(self.count)
        if halt:
            self.status = HALTED
        elif self.waits:
            self.status = WAITING
        if self.line and (halt or self.line[-1] == 10 or len(self.line) >= 128):
            outs.append((OUT, at + self.line))
            self.line = b""
        if self.send:
            peer, sent, payload = self.send
            outs.append((SEND, at + u32(peer) + u64(sent) + payload))
        if halt:
            outs.append((HALT, at + u32(halt.cause) + u32(halt.value)))
        if self.count % self.snap == 0:
            outs.append((SNAP, at + self.root()))
        return outs

    def quick_steps(self, limit):
        """Makes steps that touch registers and RAM alone, each as `execute` does it, while none of them can give outputs:
        fewer than `limit` counts, and none that makes a snapshot, a halt or an access to a device."""
        end = min(limit, self.count + self.snap - 1 - self.count % self.snap)
        x, ram, pc, n, size, dirty = self.x, self.ram, self.pc, self.count, len(self.ram), self.dirty
        with memoryview(ram) as plain, plain.cast("I") as memory:
            while n < end:
                i = pc - BASE
                if not 0 <= i < size:
                    break
                word = memory[i >> 2]
                quick = QUICK.get(word)
                if quick is None:
                    quick = QUICK[word] = quick_of(word)
                to = quick(x, pc, ram, memory, dirty)
                if to < 0:
                    break
                pc = to
                n += 1
        self.pc, self.count = pc, n

    def advance(self, limit):
        """Steps until one gives outputs, which are the answer, or the count is `limit` or no step can be made."""
        while self.count < limit and self.status == RUNNING:
            self.quick_steps(limit)
            if self.count >= limit or not self.can_step():
                break
            outs = self.step()
            if outs:
                return outs
        return []

    # inputs
    def refusal(self, kind, content):
        body = content[8:]
        if kind == CONIN:
            if self.status == HALTED:
                return "Halted"
            if self.clock is not None:
                return "ClockPending"
            return "Full" if len(self.console) + len(body) > 1024 else None
        if kind == CLOCK:
            return None if self.asks() and self.clock is None else "NotAsked"
        packet = read_packet(body)
        row = self.row(packet["from"])
        if row is None:
            return "UnknownPeer"
        return self.refuse_data(packet, row) if kind == RECV else self.refuse_ack(packet, row)

    def refuse_data(self, packet, row):
        send = read_content(SEND, packet["content"])
        if send["peer"] != self.own:
            return "NotForUs"
        if not authentic(row["key"], packet, SEND):
            return "NotAuthentic"
        if send["number"] == row["received"]:
            return "Repeated"
        if send["number"] != row["received"] + 1:
            return "WrongNumber"
        if self.status == HALTED:
            return "Halted"
        if self.clock is not None:
            return "ClockPending"
        return "Full" if len(self.messages) >= 8 else None

    def refuse_ack(self, packet, row):
        inner = read_packet(packet["content"][8:])
        send = read_content(SEND, inner["content"])
        if inner["from"] != self.own or send["peer"] != packet["from"]:
            return "NotForUs"
        if not authentic(row["key"], packet, RECV):
            return "NotAuthentic"
        if send["number"] != row["sent"] or row["sent"] == row["acked"]:
            return "NotOutstanding"
        return "ClockPending" if self.clock is not None else None

    def take(self, kind, content):
        body = content[8:]
        if kind == CONIN:
            self.console += body
        elif kind == CLOCK:
            self.clock = int.from_bytes(body, "big")
            return
        elif kind == RECV:
            packet = read_packet(body)
            send = read_content(SEND, packet["content"])
            self.messages.append((packet["from"], send["payload"]))
            self.row(packet["from"])["received"] += 1
        else:
            row = self.row(read_packet(body)["from"])
            row["acked"] = row["sent"]
        if self.status == WAITING:
            self.status = RUNNING
        if self.version == 2 and self.status != HALTED and self.vector:
            self.ring()

    def ring(self):
        if self.bell == IDLE:
            self.saved, self.pc, self.bell = self.pc, self.vector, INSIDE
        else:
            self.bell = RUNG

    # the head and the roots
    def head(self):
        parts = [u8(self.version), u8(self.own), u32(self.snap), u32(len(self.ram) // PAGE), u8(len(self.peers))]
        for p in self.peers:
            parts += [u8(p["id"]), p["key"], u64(p["sent"]), u64(p["acked"]), u64(p["received"])]
        parts += [u32(v) for v in self.x[1:]]
        parts += [u32(self.pc), u64(self.count), u8(self.status), u32(self.latch)]
        parts += [u8(len(self.line)), self.line, u16(len(self.console)), self.console, u8(len(self.messages))]
        for peer, payload in self.messages:
            parts += [u8(peer), u16(len(payload)), payload]
        parts += [u32(self.tx_peer), u32(self.tx_len), u32(self.tx_res), bytes(self.window)]
        if self.version == 2:
            parts += [u32(self.vector), u32(self.saved), u8(self.bell)]
        return b"".join(parts)

    def root(self):
        return sha(b"\x02", self.head(), page_root(bytes(self.ram)))


def page_nodes(ram):
    """The tree of pages as rows, the leaves first and the root last."""
    rows = [[sha(b"\0", ram[i:i + PAGE]) for i in range(0, len(ram), PAGE)]]
    while len(rows[-1]) > 1:
        below = rows[-1]
        rows.append([sha(b"\1", below[i], below[i + 1]) for i in range(0, len(below), 2)])
    return rows


def page_root(ram):
    return page_nodes(ram)[-1][0]


# ---- quick steps: a word's instruction as a function of registers, pc and RAM, which gives the next pc, or -1 and has
# changed nothing where the plain step has to look at it

QUICK = {}


def quick_of(w):
    lines = quick_lines(w) or ["return -1"]
    made = {}
    exec("def quick(x, pc, ram, memory, dirty):\n  " + "\n  ".join(lines), QUICK_NAMES, made)
    return made["quick"]


def quick_lines(w):
    op, rd, f3, rs1, rs2, f7 = field(w, 0, 7), field(w, 7, 5), field(w, 12, 3), field(w, 15, 5), field(w, 20, 5), w >> 25
    imm, a, b = extend(w >> 20, 12), "x[%d]" % rs1, "x[%d]" % rs2
    on = "return pc + 4"

    def put(v):
        return ["x[%d] = (%s) & 0xffffffff" % (rd, v)] if rd else []

    def goes(target):
        return ["to = %s" % target, "if to & 3: return -1"]

    if op == 0x37:
        return put(w & 0xfffff000) + [on]
    if op == 0x17:
        return put("pc + %d" % (w & 0xfffff000)) + [on]
    if op == 0x6f:
        return goes("pc + %d & 0xffffffff" % imm_j(w)) + put("pc + 4") + ["return to"]
    if op == 0x67 and f3 == 0:
        return goes("%s + %d & 0xfffffffe" % (a, imm)) + put("pc + 4") + ["return to"]
    if op == 0x63 and f3 not in (2, 3):
        test = {0: "%s == %s", 1: "%s != %s", 4: "signed(%s) < signed(%s)", 5: "signed(%s) >= signed(%s)", 6: "%s < %s",
                7: "%s >= %s"}[f3] % (a, b)
        return ["if not (%s): %s" % (test, on)] + goes("pc + %d & 0xffffffff" % imm_b(w)) + ["return to"]
    if op == 0x03 and f3 in (0, 1, 2, 4, 5) or op == 0x23 and f3 < 3:
        n = (1, 2, 4)[f3 & 3]
        offset = imm if op == 0x03 else extend(w >> 25 << 5 | rd, 12)
        place = ["i = (%s + %d & 0xffffffff) - 0x80000000" % (a, offset), "if i < 0 or i >= len(ram) or i & %d: return -1" % (n - 1)]
        if op == 0x23:
            change = {1: "ram[i] = %s & 255", 2: "ram[i:i + 2] = (%s & 65535).to_bytes(2, 'little')", 4: "memory[i >> 2] = %s"}[n] % b
            return place + [change, "dirty.add(i >> 12)", on]
        value = {1: "ram[i]", 2: "ram[i] | ram[i + 1] << 8", 4: "memory[i >> 2]"}[n]
        return place + put("extend(%s, %d)" % (value, 8 * n) if f3 < 2 else value) + [on]
    if op == 0x13 and (f3 not in (1, 5) or f7 == 0 or f7 == 0x20 and f3 == 5):
        return put({0: "%s + %d" % (a, imm), 1: "%s << %d" % (a, rs2), 2: "signed(%s) < %d" % (a, imm), 3: "%s < %d" % (a, imm & M32),
                    4: "%s ^ %d" % (a, imm), 5: ("signed(%s) >> %d" if f7 else "%s >> %d") % (a, rs2), 6: "%s | %d" % (a, imm),
                    7: "%s & %d" % (a, imm)}[f3]) + [on]
    if op == 0x33 and f7 == 1:
        return put("multiply(%d, %s, %s)" % (f3, a, b)) + [on]
    if op == 0x33 and (f7 == 0 or f7 == 0x20 and f3 in (0, 5)):
        return put({0: "%s - %s" if f7 else "%s + %s", 1: "%s << (%s & 31)", 2: "signed(%s) < signed(%s)", 3: "%s < %s", 4: "%s ^ %s",
                    5: "signed(%s) >> (%s & 31)" if f7 else "%s >> (%s & 31)", 6: "%s | %s", 7: "%s & %s"}[f3] % (a, b)) + [on]
    if op == 0x0f and f3 == 0:
        return [on]
    return None


QUICK_NAMES = {"signed": signed, "extend": extend, "multiply": multiply}
