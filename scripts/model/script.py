"""Scripts, configurations, and the words of a command line."""
import re
import string

from .base import PAGE_COUNTS, need, read
from .lms import has_types


def decimal(text, limit=1 << 64):
    """A number without leading zeros below a limit."""
    need(re.fullmatch(r"0|[1-9][0-9]*", text, re.ASCII) and len(text) < 21 and int(text) < limit)
    return int(text)


def unhex(text, least=0, most=None):
    """The bytes that hex digits of either case spell, so many of them."""
    need(len(text) % 2 == 0 and all(c in string.hexdigits for c in text))
    need(least <= len(text) // 2 and (most is None or len(text) // 2 <= most))
    return bytes.fromhex(text)


def lines_of(data):
    """The lines that count, as lists of words; a last line without its end is outside the grammar."""
    rows = data.split(b"\n")
    need(rows.pop() == b"")
    return [row.decode("latin-1").split(" ") for row in rows if row and not row.startswith(b"#")]


# ---- script

class Script:
    def __init__(self, events=(), clocks=(), end=0):
        self.events, self.clocks, self.end = list(events), clocks, end

    def clock(self, k):
        """The value for the k-th request, counted from 1; `clocks` is a list of values, or a function for other runs."""
        if callable(self.clocks):
            return self.clocks(k)
        return self.clocks[min(k, len(self.clocks)) - 1] if self.clocks else 0


def read_script(data):
    """Events are (count, what, bytes or peer) with what one of console, packet and resend."""
    need(len(data) <= 1 << 26)
    events, clocks, end = [], [], None
    for row in lines_of(data):
        need(end is None)
        if row[0] == "clock" and len(row) == 2:
            clocks.append(decimal(row[1]))
        elif row[0] == "end" and len(row) == 2:
            end = decimal(row[1], 1 << 62)
        else:
            need(row[0] == "at" and len(row) == 4 and row[2] in ("console", "packet", "resend"))
            at, given = decimal(row[1], 1 << 62), row[3]
            if row[2] == "resend":
                given = decimal(given, 16)
            else:
                given = unhex(given, 1, 256 if row[2] == "console" else 20000)
            need(not events or events[-1][0] <= at)
            events.append((at, row[2], given))
    need(end is not None and (not events or events[-1][0] <= end))
    return Script(events, clocks, end)


# ---- JSON (RFC 8259), as strict as serde_json: of a key that comes twice the last stays, nesting goes to 127, no half of a
# surrogate pair stands alone, and no number is beyond a float's range

class Json:
    NUMBER = re.compile(r"(-?(?:0|[1-9][0-9]*))(\.[0-9]+)?([eE][+-]?[0-9]+)?", re.ASCII)
    ESCAPES = dict(zip('"\\/bfnrt', '"\\/\b\f\n\r\t'))

    def __init__(self, data):
        try:
            self.text, self.at = data.decode("utf-8"), 0
        except UnicodeDecodeError:
            raise ValueError("text") from None

    def whole(self):
        value = self.value(0)
        self.space()
        need(self.at == len(self.text))
        return value

    def space(self):
        while self.peek() and self.peek() in " \t\n\r":
            self.at += 1

    def peek(self):
        return self.text[self.at:self.at + 1]

    def comes(self, text):
        if self.text.startswith(text, self.at):
            self.at += len(text)
            return True
        return False

    def value(self, depth):
        self.space()
        c = self.peek()
        if c == "{" or c == "[":
            need(depth < 127)
            self.at += 1
            return self.members(depth + 1) if c == "{" else self.items(depth + 1)
        if c == '"':
            return self.string()
        for text, value in (("true", True), ("false", False), ("null", None)):
            if self.comes(text):
                return value
        return self.number()

    def items(self, depth):
        found = []
        self.space()
        if self.comes("]"):
            return found
        while True:
            found.append(self.value(depth))
            self.space()
            if self.comes("]"):
                return found
            need(self.comes(","))

    def members(self, depth):
        found = {}
        self.space()
        if self.comes("}"):
            return found
        while True:
            self.space()
            key = self.string()
            self.space()
            need(self.comes(":"))
            found[key] = self.value(depth)
            self.space()
            if self.comes("}"):
                return found
            need(self.comes(","))

    def string(self):
        need(self.comes('"'))
        made = []
        while not self.comes('"'):
            c = self.peek()
            need(c and ord(c) >= 32)
            self.at += 1
            made.append(self.escape() if c == "\\" else c)
        return "".join(made)

    def escape(self):
        c = self.peek()
        self.at += 1
        if c in self.ESCAPES and c:
            return self.ESCAPES[c]
        need(c == "u")
        unit = self.unit()
        need(not 0xdc00 <= unit < 0xe000)
        if 0xd800 <= unit < 0xdc00:
            need(self.comes("\\u"))
            low = self.unit()
            need(0xdc00 <= low < 0xe000)
            unit = 0x10000 + (unit - 0xd800 << 10) + (low - 0xdc00)
        return chr(unit)

    def unit(self):
        digits = self.text[self.at:self.at + 4]
        need(len(digits) == 4 and all(c in string.hexdigits for c in digits))
        self.at += 4
        return int(digits, 16)

    def number(self):
        """A whole number, or a float for every other one; -0 is a float too."""
        found = self.NUMBER.match(self.text, self.at)
        need(found)
        self.at = found.end()
        if found[2] or found[3] or found[1] == "-0" or len(found[1]) > 20:
            value = float(found[0])
            need(abs(value) != float("inf"))
            return value
        return int(found[1])


def read_config(data):
    need(len(data) <= 65536)
    c = Json(data).whole()
    need(isinstance(c, dict) and set(c) | {"machine"} == {"own", "pages", "snap", "peers", "machine"})
    whole = lambda v: type(v) is int
    config = {"version": c.get("machine", 1), "own": c["own"], "pages": c["pages"], "snap": c["snap"], "peers": []}
    need(all(whole(config[k]) for k in ("version", "own", "pages", "snap")) and isinstance(c["peers"], list))
    need(config["version"] in (1, 2) and 0 <= config["own"] < 16 and config["pages"] in PAGE_COUNTS)
    need(1024 <= config["snap"] <= 1 << 24)
    for p in c["peers"]:
        need(isinstance(p, dict) and set(p) == {"id", "key"} and whole(p["id"]) and isinstance(p["key"], str))
        key = unhex(p["key"], 56, 56)
        need(0 <= p["id"] < 16 and p["id"] != config["own"] and has_types(key))
        config["peers"].append(dict(id=p["id"], key=key, sent=0, acked=0, received=0))
    config["peers"].sort(key=lambda p: p["id"])
    ids = [p["id"] for p in config["peers"]]
    need(len(ids) == len(set(ids)))
    return config


# ---- words

def name(text):
    return text


def one_of(*values):
    return lambda text: (need(decimal(text) in values), decimal(text))[1]


def below(limit, least=0):
    return lambda text: (need(least <= decimal(text, limit)), decimal(text, limit))[1]


def exact(n):
    return lambda text: unhex(text, n, n)


# per command the options in the order of judging; those in brackets may be left out, a bracket's all or none
COMMANDS = {
    "keygen": [("height", one_of(5, 10, 15)), ("w", one_of(1, 2, 4, 8)), ("id", exact(16)), ("seed", exact(32)), ("key", name),
               ("public", name)],
    "format": [("store", name), ("key", name), ("config", name), ("image", name)],
    "record": [("store", name), ("key", name), ("script", name), ("packets", name), ("console", name), ("auths", name)],
    "export": [("store", name), ("from", decimal), ("to", decimal), ("segment", name)],
    "audit": [("segment", name), [("image", name)], [("key", name), ("auths", name), ("evidence", name)]],
    "check": [("key", name), ("evidence", name)],
    "rebut": [("store", name), ("evidence", name)],
    "list": [("store", name)],
    "sample": [("seed", below(1 << 32))],
    "retain": [("store", name), ("into", name), ("at", decimal)],
    "roll": [("store", name), ("key", name)],
    "enroll": [("store", name), ("key", name), ("public", name), ("endorse", name)],
    "widen": [("endorse", name), ("auths", name), ("out", name)],
    "narrow": [("key", name), ("auths", name), ("public", name), ("out", name)],
}
VIEWS = [
    [("segment", name), ("count", decimal), [("from", exact(4)), ("words", below(4097, 1))]],
    [("segment", name), ("changes", exact(4))],
]


def job(words):
    """The command and its options by name, or None where the words are no job."""
    if not words:
        return None
    shapes = VIEWS if words[0] == "view" else [COMMANDS[words[0]]] if words[0] in COMMANDS else []
    for shape in shapes:
        options = read(options_of, shape, words[1:])
        if options is not None:
            return words[0], options
    return None


def options_of(shape, words):
    need(len(words) % 2 == 0)
    given = {}
    for option, value in zip(words[::2], words[1::2]):
        need(option.startswith("--") and option not in given and value)
        given[option] = value
    options, names = {}, []
    for part in shape:
        group = part if isinstance(part, list) else [part]
        there = ["--" + option in given for option, _ in group]
        need(all(there) or isinstance(part, list) and not any(there))
        for option, reader in group if all(there) else []:
            value = given.pop("--" + option)
            options[option] = reader(value)
            if reader is name:
                names.append(value)
    need(not given and len(names) == len(set(names)))
    return options
