"""Several nodes under a schedule: turns, deliveries, seals and crashes, and the lines of the program for it."""
from .base import RUNNING, WAITING, need, read, u32
from .disk import Disk
from .journal import booted, journal_of, made, put_journal
from .lms import read_private
from .recorder import Recorder, Stopped
from .script import decimal, lines_of, unhex

SPELL = 65536


class Node:
    def __init__(self, disk, key):
        self.key = key
        self.open(disk)

    def open(self, data):
        self.disk = Disk(data)
        self.recorder = Recorder(journal_of(data), self.disk, self.key)
        self.disk.forget()

    def turn(self, event, number):
        """One turn with at most one event, (what, given) or None; a clock request gets the event's number."""
        r, m = self.recorder, self.recorder.m
        if r.stop:
            return "ended"
        try:
            if m.clock is not None:
                r.step()
            elif event is not None:
                return r.give(*event) or "took"
            elif m.status != RUNNING:
                return "waiting" if m.status == WAITING else "halted"
            elif m.asks():
                r.clock(number)
            else:
                r.steps(m.count + SPELL)
            return "ran"
        except Stopped:
            return "stopped"

    def seal(self):
        if self.recorder.stop:
            return "ended"
        try:
            self.recorder.seal()
            return "sealed"
        except Stopped:
            return "stopped"


class Refused(Exception):
    """The number of the event without a node or a packet."""


class World:
    def __init__(self, nodes):
        self.nodes, self.pool, self.events = nodes, [], 0

    def step(self, node, act, given, crash):
        self.events += 1
        if node >= len(self.nodes) or act == "deliver" and given >= len(self.pool):
            raise Refused(self.events)
        node = self.nodes[node]
        node.disk.forget()
        node.recorder.released = []
        if act == "seal":
            node.seal()
        else:
            event = {"turn": None, "deliver": ("packet", given), "console": ("console", given), "resend": ("resend", given)}[act]
            node.turn(("packet", self.pool[given]) if act == "deliver" else event, self.events)
        released = [piece[2] for piece in node.recorder.released if piece[0] == "packet"]
        if crash:
            calls, long, fill = crash
            if len(node.disk.calls) > calls:
                released = []
            node.open(node.disk.image(min(calls, len(node.disk.calls)), long, fill))
        self.pool += released


def read_schedule(data):
    """The nodes as (seed, image), and the events as (node, act, given, crash)."""
    need(len(data) <= 1 << 24)
    nodes, events = [], []
    for row in lines_of(data):
        if row[0] == "node":
            need(len(row) == 3 and not events and len(nodes) < 4)
            nodes.append((unhex(row[1], 32, 32), unhex(row[2], 1, 4096)))
            need(nodes[-1][1][:4] != b"\x7fELF")
        else:
            events.append(read_event(row))
    need(nodes)
    return nodes, events


def read_event(row):
    crash, given = None, None
    if len(row) > 4 and row[-4] == "crash":
        need(row[-2] in ("short", "long"))
        crash = decimal(row[-3], 1 << 32), row[-2] == "long", unhex(row[-1], 1, 1)[0]
        row = row[:-4]
    need(len(row) >= 2)
    node, act = decimal(row[0], 1 << 32), row[1]
    if act in ("turn", "seal"):
        need(len(row) == 2)
    else:
        need(len(row) == 3 and act in ("deliver", "console", "resend"))
        given = unhex(row[2], 1, 256) if act == "console" else decimal(row[2], 1 << 32 if act == "deliver" else 16)
    return node, act, given, crash


def world_of(nodes):
    keys = [read_private(b"AVMK\1" + u32(5) + u32(4) + bytes([i]) * 16 + seed) for i, (seed, _) in enumerate(nodes)]
    made_nodes = []
    for i, (_, image) in enumerate(nodes):
        rows = [dict(id=j, key=k.public(), sent=0, acked=0, received=0) for j, k in enumerate(keys) if j != i]
        config = {"own": i, "snap": 1024, "pages": 1, "peers": rows, "version": 1}
        journal = made(keys[i].public(), booted(config, (image.ljust(4096, b"\0"), 0x80000000)))
        made_nodes.append(Node(put_journal(journal), keys[i]))
    return World(made_nodes)


def run_world(words, files):
    """The text and the status of the program of several nodes."""
    if len(words) != 2 or words[0] != "--schedule" or not words[1]:
        return "refused words\n", 3
    schedule = read(read_schedule, files[words[1]]) if words[1] in files else None
    if schedule is None:
        return "refused file --schedule\n", 3
    world = world_of(schedule[0])
    try:
        for event in schedule[1]:
            world.step(*event)
    except Refused as refused:
        return "refused event %d\n" % refused.args[0], 2
    return text_of(world), 0


def text_of(world):
    lines = ["events %d packets %d" % (world.events, len(world.pool))]
    rows = [{p["id"]: p for p in node.recorder.m.peers} for node in world.nodes]
    for i, mine in enumerate(rows):
        for j in sorted(mine):
            lines.append("%d from %d received %d of %d" % (i, j, mine[j]["received"], rows[j][i]["sent"]))
    return "".join(line + "\n" for line in lines)
