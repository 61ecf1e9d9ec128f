"""Holds the program of several nodes against the model on drawn schedules with losses, repeats, reordering and crashes, and on
schedules outside the grammar.

Usage: compare_world.py PROGRAM FOLDER [SEED [SCHEDULES]]. Equal seeds give equal schedules."""
import random
import sys

import both
import compare
import hostile
import model as m
import stories

# each sends to the next peer again and again, as soon as the last message is acknowledged
SENDER = "100002b7 00%d00313 0262a023 00100393 0272a223 0202a423 ffdff06f"


class World(both.Both):
    def __init__(self, program, folder):
        compare.Comparison.__init__(self, program, folder + "/world")
        self.skipped, self.slowest, self.unbuilt, self.bell, self.without_bell = {}, 0.0, set(), False, False

    def schedule(self, case, text, words=("--schedule", "s"), want=None):
        files = {"s": text}
        want, got = want or m.run_world(list(words), files), self.answers(list(words), files)
        if got == both.NOT_BUILT:
            self.skip(["world"])
        elif got != want:
            self.failed.append("%s: expected %r, got %r" % (case, want, got))
        else:
            self.passed += 1


def image(r, own, others):
    way = r.random()
    if way < 0.4:
        return m.words(SENDER % r.choice(others))
    return m.words(compare.ECHO) if way < 0.7 else stories.guest(r, 1)


def crash(r):
    if r.random() < 0.8:
        return None
    return r.choice([0, 1, 2, 3, 3, 4, 9]), r.random() < 0.5, r.choice([0, 1, 1, 255])


def event(r, world):
    """A drawn event; most deliveries are of late packets."""
    node, way, pool = r.randrange(len(world.nodes)), r.random(), len(world.pool)
    if pool and way < 0.5:
        return node, "deliver", r.choice([pool - 1, pool - 1, max(0, pool - 2), r.randrange(pool)]), crash(r)
    if way < 0.8:
        return node, "turn", None, crash(r)
    if way < 0.88:
        return node, "console", r.randbytes(r.choice([1, 3, 256])), crash(r)
    return (node, "resend", r.randrange(4), crash(r)) if way < 0.95 else (node, "seal", None, crash(r))


def line(node, act, given, crashed):
    words = [str(node), act]
    if given is not None:
        words.append(given.hex() if act == "console" else str(given))
    if crashed:
        words += ["crash", str(crashed[0]), "long" if crashed[1] else "short", "%02x" % crashed[2]]
    return " ".join(words)


def drawn(r):
    """A schedule's text, drawn while the model follows it, and what the program prints for it."""
    count = r.choice([2, 2, 3, 4])
    nodes = [(bytes([0x61 + i]) * 32, image(r, i, [j for j in range(count) if j != i])) for i in range(count)]
    lines = ["node %s %s" % (seed.hex(), code.hex()) for seed, code in nodes]
    world = m.world_of(nodes)
    for _ in range(r.choice([5, 30, 80])):
        step = event(r, world)
        lines.append(line(*step))
        world.step(*step)
    return "\n".join(lines + [""]).encode(), (m.text_of(world), 0)


def grammars(c):
    node = "node %s 6f000000\n" % ("11" * 32)
    second = "node %s 6f000000\n" % ("22" * 32)
    for text in [node, "", "\n# x\n" + node, node * 4, node * 5, node[:-1], node.replace("11", "1g", 1), node.replace("1111", "111", 1),
                 node.replace(" 6f000000", ""), node.replace("6f000000", ""), node.replace("6f000000", "6f" * 4096), node.replace("6f000000", "6f" * 4097),
                 node.replace("6f000000", "7f454c46"), node.replace("6f000000", "7f454c"), "0 turn\n" + node, node + "0 turn\n" + second, node + "1 turn\n",
                 node + "0 turn\n0 deliver 0\n", node + "1 deliver 0\n", node + "0 turn crash 0 short 00\n", node + "0 turn crash 0 long fF\n",
                 node + "0 turn crash 0 long f\n", node + "0 turn crash long 00\n", node + "0 turn crash 0 wide 00\n", node + "0 turn crash 00 long 00\n",
                 node + "0 turn crash 4294967295 long 00\n", node + "0 turn crash 4294967296 long 00\n", node + "4294967295 turn\n",
                 node + "4294967296 turn\n", node + "0 resend 15\n", node + "0 resend 16\n", node + "0 console 41\n", node + "0 console\n",
                 node + "0 console 4\n", node + "0 console %s\n" % ("41" * 256), node + "0 console %s\n" % ("41" * 257), node + "0 seal 1\n", node + "0 turn 1\n",
                 node + "0 seal\n0 seal\n" * 20, node + "0 nothing\n", node + "0\n", node + "00 turn\n", node + " 0 turn\n", node + "0  turn\n", node + "0 turn \n",
                 node + "0 console 41\n0 seal\n" * 40 + "0 seal crash 9 long 00\n0 turn\n"]:
        c.schedule("grammar %r" % text[-60:], text.encode())
    for words in ([], ["--schedule"], ["--schedule", ""], ["--schedule", "s", "--schedule", "s"], ["schedule", "s"], ["--schedule", "other"]):
        c.schedule("words %r" % words, node.encode(), words)


def main():
    seed = int(sys.argv[3]) if len(sys.argv) > 3 else 1
    count = int(sys.argv[4]) if len(sys.argv) > 4 else 200
    print("schedules: seed %d, %d schedules" % (seed, count), flush=True)
    c = World(sys.argv[1], sys.argv[2])
    grammars(c)
    for n in range(count):
        r = random.Random("%d %d" % (seed, n))
        text, want = drawn(r)
        c.schedule("seed %d, schedule %d" % (seed, n), text, want=want)
        if n % 4 == 0:
            c.schedule("seed %d, schedule %d, bent" % (seed, n), hostile.bent(r, text))
    return c.end("schedules: ")


if __name__ == "__main__":
    sys.exit(main())
