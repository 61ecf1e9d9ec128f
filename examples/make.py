"""Makes the files of this folder and of tour/ anew, by the independent model in ../scripts."""
import json
import os
import shutil
import subprocess
import sys
import tempfile

HERE = os.path.dirname(os.path.abspath(__file__))
sys.path.insert(0, os.path.join(HERE, "..", "scripts"))
import model as m  # noqa: E402

HELLO = "100002b7 04800313 0062a023 00a00313 0062a023 00000073"
IMAGES = os.path.join(HERE, "..", "guest", "images")


def put(name, data):
    with open(os.path.join(HERE, name), "wb") as f:
        f.write(data if isinstance(data, bytes) else data.encode())


def hello():
    image = m.words(HELLO)
    state = m.Machine(ram=image.ljust(4096, b"\0"))
    frames, _ = m.record(state, 100)
    put("hello.img", image)
    put("hello.seg", m.put_segment(1, bytes(32), state, frames))
    seq, kind, content = frames[1]
    cheat = [frames[0], (seq, kind, m.u64(4) + content[8:]), frames[2]]
    put("cheat.seg", m.put_segment(1, bytes(32), state, cheat))
    key = m.Key(5, 4, bytes(range(16)), b"\x11" * 32)
    put("owner.pub", key.public())
    for name, log in [("hello.auths", frames), ("cheat.auths", cheat)]:
        h = m.chain_of(bytes(32), log)[3]
        put(name, m.put_auth(3, h, key.sign(0 if log is frames else 1, m.signed_text(3, h))))


def console(at, text):
    return "# console: %s\nat %d console %s\n" % (text, at, (text + "\n").encode().hex())


def tour():
    """The two sittings of the tour, the customer's script between them, and the cheat: what tour.sh will meet."""
    folder = tempfile.mkdtemp()
    path = lambda name: os.path.join(HERE, "tour", name)
    script = lambda name, *words: subprocess.run([sys.executable, "-B", os.path.join(HERE, name), *words], capture_output=True,
                                                 text=True, check=True).stdout
    alice = lambda *words: script("customer.py", folder, *words)
    key = m.Key(5, 4, bytes(range(16)), b"\x11" * 32)
    peers = [{"id": 1, "key": alice("public").strip()}]
    shutil.copy(os.path.join(IMAGES, "ledger.img"), path("ledger.img"))
    with open(path("ledger.img"), "rb") as f:
        files = {"image": f.read(), "key": key.private(), "operator.pub": key.public()}
    files["ledger.config"] = (json.dumps({"own": 0, "pages": 4, "snap": 4096, "peers": peers}) + "\n").encode()

    def avm(line):
        printed, status = m.avm(line.split(), files)
        print(printed, end="")
        assert status == 0
        return printed

    def in_folder(name):
        with open(os.path.join(folder, name), "wb") as f:
            f.write(files[name])
        return os.path.join(folder, name)

    record = "record --store store --key key --script %s --packets packets --console console.txt --auths ledger.auths"
    avm("format --store store --key key --config ledger.config --image image")
    opened = "".join(console(0, text) for text in ("open alice 1 100", "open bob 2 50", "open house 0 0"))
    order = alice("order", "5000", "pay alice bob 30")
    files["morning.script"] = ("clock 900\n" + opened + order + "end 100000\n").encode()
    avm(record % "morning.script")
    files["evening.script"] = ("clock 1700\n" + alice("answer", "10000", in_folder("packets"), in_folder("operator.pub"))
                               + alice("order", "10000", "pay alice bob 500") + console(20000, "close") + "end 100000\n").encode()
    last = int(avm(record % "evening.script").split()[2])
    files["list.txt"] = avm("list --store store").encode()
    snap = max(int(line.split()[0]) for line in files["list.txt"].decode().splitlines() if line.split()[1] == "SNAP")
    avm("export --store store --from 1 --to %d --segment ledger.seg" % last)
    avm("export --store store --from %d --to %d --segment late.seg" % (snap, last))
    for name in ("operator.pub", "ledger.config", "morning.script", "evening.script", "list.txt", "console.txt", "ledger.seg",
                 "late.seg", "ledger.auths"):
        put("tour/" + name, files[name])
    print(script("cheat.py", path("ledger.seg"), in_folder("key"), "31", path("cheat.seg"), path("cheat.auths"),
                 "refused: alice has 70", "receipt 2 at 1700: alice pays house 70",
                 "alice 70, bob 80, house 0", "alice 0, bob 80, house 70"), end="")
    shutil.rmtree(folder)


if __name__ == "__main__":
    hello()
    tour()
