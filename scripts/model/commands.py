"""The program: what it prints for a command line, its status, and what it makes of the files. Stores are files here too."""
from .base import STATUS, need, read
from .disk import Disk
from .entries import read_auths
from .hss import (LeavesSpent, NarrowRefused, enroll, narrow, put_endorsement, put_roll, read_endorsement, read_roll, widen)
from .journal import Damaged, booted, journal_of, made, put_journal
from .lines import item_lines
from .lms import Key, read_private, read_public
from .rebut import Uncovered, rebut
from .recorder import Range, Recorder, Stopped, Unreplayed, export, play
from .retain import RetainRefused, retain
from .sample import lines_of_sample
from .script import job, read_config, read_script
from .segments import image_fault, load_image, read_head
from .verdict import holds, read_evidence, stands, verdict
from .view import View, ViewRefused, change_lines, state_lines


class End(Exception):
    """An end before the command is done: its line and its status."""

    def __init__(self, line, status=2):
        self.line, self.status = line, status


class Run:
    """One run of the program over files, which it changes. `printed` has the lines so far."""

    def __init__(self, files, options):
        self.files, self.o, self.printed = files, options, []

    def say(self, line):
        self.printed.append(line)

    def file(self, option, reader=bytes, limit=None):
        """What the file of an option is, judged; an end where it isn't there or isn't one."""
        data = self.files.get(self.o[option])
        given = None if data is None or limit is not None and len(data) > limit else read(reader, bytes(data))
        if given is None:
            raise End("refused file --" + option, 3)
        return given

    def disk(self, option="store"):
        if self.o[option] not in self.files:
            raise End("fault disk" if option == "store" else "fault spare", 4)
        return Disk(self.files[self.o[option]])

    def save(self, disk, option="store"):
        self.files[self.o[option]] = bytes(disk.data)

    def append(self, option, data):
        self.files[self.o[option]] = self.files.get(self.o[option], b"") + data

    def journal(self, disk):
        """The journal of a store, with a head that is one."""
        try:
            journal = journal_of(disk.data)
            read_head(journal.head, journal.pages)
            return journal
        except Damaged as damaged:
            raise End("refused damaged %d" % damaged.place) from None
        except ValueError:
            raise End("refused nostore") from None


def avm(words, files):
    """The text that is printed, and the status; `files` is changed as the run changes them."""
    given = job(words)
    if given is None:
        return "refused words\n", 3
    command, options = given
    for option in [o for c, o in (("format", "store"), ("roll", "store"), ("retain", "into")) if c == command]:
        files.setdefault(options[option], b"")
    run, status = Run(files, options), 0
    try:
        status = COMMANDS[command](run) or 0
    except End as end:
        run.say(end.line)
        status = end.status
    except Unreplayed as fault:
        run.say("refused journal %d" % fault.number)
        status = 2
    except Range:
        run.say("refused range")
        status = 2
    return "".join(line + "\n" for line in run.printed), status


def keygen(run):
    o = run.o
    key = Key({5: 5, 10: 6, 15: 7}[o["height"]], {1: 1, 2: 2, 4: 3, 8: 4}[o["w"]], o["id"], o["seed"])
    run.files[o["key"]], run.files[o["public"]] = key.private(), key.public()
    run.say("key made")


def format_store(run):
    key, config = run.file("key", read_private), run.file("config", read_config)

    def loaded(image):
        given = load_image(image, config["pages"])
        need(not isinstance(given, str))
        return given

    image, disk = run.file("image", loaded, 1 << 25), run.disk()
    if disk.data:
        raise End("refused notempty")
    disk.write(0, put_journal(made(key.public(), booted(config, image))))
    run.save(disk)
    run.say("store made")


def record(run):
    key, script, disk = run.file("key", read_private), run.file("script", read_script), run.disk()
    journal = run.journal(disk)
    if journal.mark is not None:
        raise End("refused retired")
    if journal.key != key.public():
        raise End("refused key")
    recorder, drops = Recorder(journal, disk, key), []

    def dropped(cause, count):
        drops.append(cause)
        run.say("dropped %s %d" % (cause.lower(), count))

    try:
        play(recorder, script, dropped)
        run.say("recorded entries %d dropped %d leaves %d %s" % (journal.last, len(drops), journal.used(), STATUS[recorder.m.status]))
        stop = None
    except Stopped as stopped:
        stop = End("refused " + stopped.why)
    for piece in recorder.released:
        if piece[0] == "packet":
            run.append("packets", piece[1].to_bytes(4, "big") + len(piece[2]).to_bytes(4, "big") + piece[2])
        else:
            run.append("console" if piece[0] == "console" else "auths", piece[1])
    run.save(disk)
    if stop:
        raise stop


def export_segment(run):
    segment = export(run.journal(run.disk()), run.o["from"], run.o["to"])
    run.files[run.o["segment"]] = segment
    run.say("exported %d to %d" % (run.o["from"], run.o["to"]))


def audit(run):
    image = key = None
    auths = b""
    if "image" in run.o:
        image = run.file("image", lambda data: (need(not image_fault(data)), data)[1], 1 << 25)
    if "key" in run.o:
        key, auths = run.file("key", read_public), run.file("auths")
    line, status, evidence = verdict(run.file("segment"), key, auths, image)
    if evidence is not None and "evidence" in run.o:
        run.files[run.o["evidence"]] = evidence
    run.say(line)
    return status


def check(run):
    key = run.file("key", read_public)
    if not holds(run.file("evidence"), key):
        raise End("refused evidence")
    run.say("evidence stands")


def rebut_evidence(run):
    evidence = read(read_evidence, run.file("evidence"))
    if evidence is None:
        raise End("refused evidence")
    journal = run.journal(run.disk())
    if evidence["key"] != journal.key:
        raise End("refused key")
    if not stands(evidence):
        raise End("refused evidence")
    fault, _, _ = journal.stretch(journal.last, from_header=True)
    if fault is not None:
        raise Unreplayed(fault)
    try:
        answer = rebut(journal, evidence)
    except Uncovered:
        raise End("refused uncovered") from None
    for line in ["forged %d" % answer[1]] if answer[0] == "forged" else ["collision", answer[1].hex(), answer[2].hex()]:
        run.say(line)


def list_items(run):
    for line in item_lines(run.journal(run.disk())):
        run.say(line)


def sample(run):
    lines, status = lines_of_sample(run.o["seed"])
    for line in lines:
        run.say(line)
    return status


def retain_store(run):
    disk = run.disk()
    journal = run.journal(disk)
    spare = run.disk("into")
    try:
        retain(journal, disk, run.o["at"], spare)
    except RetainRefused as refused:
        raise End("refused %s" % refused) from None
    finally:
        run.save(disk)
        run.save(spare, "into")
    run.say("retained %d" % run.o["at"])


def roll(run):
    key, disk = run.file("key", read_private), run.disk()
    if disk.data:
        raise End("refused notempty")
    disk.write(0, put_roll(key.public()))
    run.save(disk)
    run.say("roll made")


def enroll_key(run):
    key, bottom, disk = run.file("key", read_private), run.file("public", read_public), run.disk()
    given = read(read_roll, disk.data)
    if given is None:
        raise End("refused nostore")
    if given.key[4:] != key.public():
        raise End("refused key")
    try:
        leaf = enroll(given, disk, bottom)
    except LeavesSpent:
        raise End("refused leaves") from None
    run.save(disk)
    run.files[run.o["endorse"]] = put_endorsement(key, leaf, bottom)
    run.say("enrolled %d" % leaf)


def widen_auths(run):
    endorsement, auths = run.file("endorse", read_endorsement), run.file("auths", read_auths)
    run.files[run.o["out"]] = widen(endorsement, auths)
    run.say("widened %d" % len(auths))


def narrow_auths(run):
    top, data = run.file("key", read_public), run.file("auths")
    try:
        bottom, auths = narrow(top, data)
    except NarrowRefused as refused:
        raise End("refused %s" % refused) from None
    run.files[run.o["public"]], run.files[run.o["out"]] = bottom, auths
    run.say("narrowed %d" % len(read_auths(auths, 1 << 25)))


def view(run):
    given = run.file("segment")
    try:
        shown, o = View(given), run.o
        if "changes" in o:
            lines = change_lines(shown, int.from_bytes(o["changes"], "big"))
        else:
            lines = state_lines(shown, o["count"], int.from_bytes(o.get("from", b""), "big"), o.get("words", 0))
    except ViewRefused as refused:
        raise End("refused %s" % refused) from None
    for line in lines:
        run.say(line)


COMMANDS = {"keygen": keygen, "format": format_store, "record": record, "export": export_segment, "audit": audit, "check": check,
            "rebut": rebut_evidence, "list": list_items, "sample": sample, "retain": retain_store, "roll": roll, "enroll": enroll_key,
            "widen": widen_auths, "narrow": narrow_auths, "view": view}
