#!/usr/bin/env python3
"""Makes one HTML page of a segment, for people who would rather look: a timeline of inputs, outputs, snapshots and signed
positions over the instruction count, the verdict, the guest's registers and memory at each entry, and of evidence what disagrees,
side by side. The page needs no network.

Usage: report.py PAGE [--segment FILE] [--key FILE --auths FILE] [--evidence FILE] [--from ADDRESS --words N]
                 [--program PROGRAM] [--states N]
At least a segment or evidence is given; without a segment, that of the evidence is shown. The verdict, and the states where it has
`view`, are the program's; without it (../avm isn't asked, since it may build) they are the independent model's. States are shown
for the first N entries, 100 where it isn't said."""
import html
import json
import os
import subprocess
import sys
import tempfile

HERE = os.path.dirname(os.path.abspath(__file__))
sys.dont_write_bytecode = True
sys.path.insert(0, HERE)
import model as m  # noqa: E402
from model.lines import entry_line  # noqa: E402
from model.view import View, ViewRefused, word_at  # noqa: E402

LANES = ["inputs", "outputs", "snapshots", "signed"]
OF_KIND = {m.BOOT: "snapshots", m.SNAP: "snapshots", m.CONIN: "inputs", m.CLOCK: "inputs", m.RECV: "inputs", m.ACKED: "inputs",
           m.OUT: "outputs", m.SEND: "outputs", m.HALT: "outputs"}
CAUSES = ["", "ECALL", "EBREAK", "illegal word", "jump to no multiple of 4", "misaligned load", "misaligned store", "unmapped load",
          "unmapped store", "fetch outside RAM"]
FORMS = {1: "Double: one number, two signed hashes", 2: "Fork: a signed position off the signed chain",
         3: "Replay: a signed log that the guest doesn't make"}
MOST_ROWS = 2000


def read(path):
    with open(path, "rb") as f:
        return f.read()


def text_of(data):
    """Bytes as text, with what isn't printable as escapes."""
    return "".join(chr(b) if 32 <= b < 127 else "\\n" if b == 10 else "\\x%02x" % b for b in data)


def says(kind, content):
    """What an entry says, for a person."""
    c, body = m.read_content(kind, content), content[8:]
    if kind in (m.BOOT, m.SNAP):
        return "root " + c["root"].hex()[:16] + ".."
    if kind in (m.CONIN, m.OUT):
        return text_of(body)
    if kind == m.CLOCK:
        return str(c["value"])
    if kind == m.SEND:
        return "to peer %d, number %d: %s" % (c["peer"], c["number"], text_of(c["payload"]))
    if kind == m.HALT:
        return "%s, value %d" % (CAUSES[c["cause"]] if c["cause"] < len(CAUSES) else c["cause"], c["value"])
    packet = c["packet"]
    if kind == m.RECV:
        sent = m.read_content(m.SEND, packet["content"])
        return "from peer %d, number %d: %s" % (packet["from"], sent["number"], text_of(sent["payload"]))
    inner = m.read_content(m.SEND, m.read_packet(packet["content"][8:])["content"])
    return "peer %d has taken number %d" % (packet["from"], inner["number"])


class Program:
    """The program in a folder of its own; `run` gives its output and status."""

    def __init__(self, path, folder):
        self.path, self.folder = os.path.abspath(path), folder

    def run(self, *words):
        done = subprocess.run([self.path, *words], cwd=self.folder, capture_output=True, timeout=600)
        return done.stdout.decode("latin-1").rstrip("\n"), done.returncode

    def put(self, name, data):
        with open(os.path.join(self.folder, name), "wb") as f:
            f.write(data)
        return name


class Report:
    def __init__(self, options):
        self.o = options
        self.evidence = m.read_evidence(read(options["evidence"])) if "evidence" in options else None
        self.segment = read(options["segment"]) if "segment" in options else None
        if self.segment is None and self.evidence and self.evidence["form"] == 3:
            self.segment = self.evidence["body"]
        self.key = read(options["key"]) if "key" in options else self.evidence["key"] if self.evidence else None
        self.auths = m.read_auths(read(options["auths"])) if "auths" in options else []
        if not self.auths and self.evidence and "segment" not in options:
            self.auths = self.evidence["auths"]
        given = m.read_segment(self.segment) if self.segment is not None else None
        self.start, self.before, self.state, self.frames = given or (0, b"", None, [])
        self.chain = m.chain_of(self.before, self.frames) if given else {}
        self.fault, self.told = self.first_fault()
        self.line, self.by = self.verdict()
        self.states, self.states_by = self.all_states()
        if self.fault is not None and self.fault - 1 in self.states:
            # where the guest stood when it last did what the log says
            self.states[self.fault] = self.states[self.fault - 1]

    def auth_bytes(self):
        return b"".join(m.put_auth(*a) for a in self.auths)

    def first_fault(self):
        """The first entry that doesn't replay, or None, and what the guest does in its place."""
        if not self.frames or not m.is_committed(self.state, self.frames[0]):
            return None, None
        n = m.first_fault(self.state.copy(), self.frames[1:])
        if n is None:
            return None, None
        front = [(k, c) for s, k, c in self.frames[1:] if s < n]
        seq, kind, content = self.frames[n - self.start]
        inputs = [(k, c) for k, c in front if k in m.INPUTS]
        if kind in m.INPUTS:
            inputs.append((kind, content))
        # far enough to see what comes instead
        limit = max(m.count_of(content), m.count_of(self.frames[-1][2])) + self.state.snap
        made = m.rerun(self.state.copy(), inputs, limit, len(front) + 1)[len(front):]
        return n, made[0] if made else None

    def verdict(self):
        if self.segment is None:
            return (None, None)
        if "program" in self.o:
            with tempfile.TemporaryDirectory() as folder:
                p = Program(self.o["program"], folder)
                words = ["audit", "--segment", p.put("segment", self.segment)]
                if self.key and self.auths:
                    words += ["--key", p.put("key", self.key), "--auths", p.put("auths", self.auth_bytes()), "--evidence", "evidence"]
                return p.run(*words)[0], "avm"
        return m.verdict(self.segment, self.key, self.auth_bytes() if self.key else b"")[0], "the independent model"

    def all_states(self):
        """Per entry number the lines of `view` at its count, and whose they are."""
        if not self.frames:
            return {}, None
        good = self.frames if self.fault is None else self.frames[:self.fault - self.start]
        segment = m.put_segment(self.start, self.before, self.state, good)
        most = int(self.o.get("states", "100"))
        chosen = good[:most] + (good[-1:] if self.fault is not None and len(good) > most else [])
        memory = ["--from", self.o["from"], "--words", self.o["words"]] if "from" in self.o else []
        if "program" in self.o:
            with tempfile.TemporaryDirectory() as folder:
                p = Program(self.o["program"], folder)
                p.put("segment", segment)
                states = {}
                for seq, _, content in chosen:
                    text, status = p.run("view", "--segment", "segment", "--count", str(m.count_of(content)), *memory)
                    if status:
                        break
                    states[seq] = text.split("\n")
                if states:
                    return states, "avm"
        try:
            view = View(segment)
        except ViewRefused:
            return {}, None
        at, n = (int(self.o["from"], 16), int(self.o["words"])) if memory else (0, 0)
        return {seq: self.model_state(view, m.count_of(content), at, n) for seq, _, content in chosen}, "the independent model"

    @staticmethod
    def model_state(view, count, at, n):
        machine = view.at(count)
        lines = ["count %d pc %08x %s" % (count, machine.pc, m.STATUS[machine.status])]
        lines += ["x%d %08x" % (i, v) for i, v in enumerate(machine.x) if v]
        return lines + ["%08x %08x" % (at + 4 * i, word_at(machine, at + 4 * i)) for i in range(n)]

    # the page's parts
    def facts(self):
        if not self.frames:
            return []
        counts = [m.count_of(c) for _, _, c in self.frames]
        s = self.state
        pages = len(s.ram) // m.PAGE
        return [("entries", "%d to %d" % (self.start, self.frames[-1][0])), ("instructions", "%d to %d" % (counts[0], counts[-1])),
                ("machine", "id %d, %d %s, a snapshot every %d" % (s.own, pages, "page" if pages == 1 else "pages", s.snap)),
                ("peers", ", ".join(str(p["id"]) for p in s.peers) or "none"), ("signed positions", str(len(self.auths))),
                ("key", self.key[24:].hex()[:16] + ".." if self.key else "none given")]

    def timeline(self):
        """The lanes over the count, as SVG."""
        counts = [m.count_of(c) for _, _, c in self.frames]
        low, high, left, wide = counts[0], max(counts[-1], counts[0] + 1), 96, 880
        x = lambda count: left + wide * (count - low) / (high - low)
        out = ['<svg viewBox="0 0 1000 230" role="img" aria-label="timeline of the entries over the instruction count">']
        for i, lane in enumerate(LANES):
            y = 36 + 44 * i
            out.append('<text x="0" y="%d" class="lane">%s</text><path class="rail" d="M%d %dH%d"/>' % (y + 4, lane, left, y, left + wide))
        parts = high - low if high - low <= 8 else 5
        for k in range(parts + 1):
            at = low + (high - low) * k // parts
            out.append('<path class="grid" d="M%.1f 18V194"/><text class="tick" x="%.1f" y="214" text-anchor="middle">%s</text>'
                       % (x(at), x(at), "{:,}".format(at)))
        for (seq, kind, content), count in zip(self.frames, counts):
            lane = OF_KIND[kind]
            title = html.escape("%d %s at %d: %s" % (seq, m.NAMES[kind], count, says(kind, content)))
            bad = " bad" if seq == self.fault else ""
            out.append('<g class="mark %s%s" data-seq="%d"><title>%s</title><rect x="%.1f" y="%d" width="7" height="24" rx="2"/></g>'
                       % (lane, bad, seq, title, x(count) - 3.5, 24 + 44 * LANES.index(lane)))
        by_seq = {seq: count for (seq, _, _), count in zip(self.frames, counts)}
        for i, (seq, h, _) in enumerate(self.auths):
            if seq in by_seq:
                good = self.chain.get(seq) == h
                out.append('<g class="mark signed%s" data-seq="%d"><title>authenticator %d signs entry %d%s</title><circle cx="%.1f" cy="168" '
                           'r="8"/></g>' % ("" if good else " bad", seq, i, seq, "" if good else ", with another hash", x(by_seq[seq])))
        if self.fault is not None:
            out.append('<path class="faultline" d="M%.1f 10V194"/>' % x(by_seq[self.fault]))
        return "\n".join(out + ["</svg>"])

    def rows(self):
        shown = self.frames if len(self.frames) <= MOST_ROWS else self.frames[:MOST_ROWS // 2] + self.frames[-MOST_ROWS // 2:]
        signed = {seq for seq, h, _ in self.auths if self.chain.get(seq) == h}
        for seq, kind, content in shown:
            marks = ("signed " if seq in signed else "") + ("doesn't replay" if seq == self.fault else "")
            yield ('<tr data-seq="%d" tabindex="0"%s><td>%d</td><td><span class="dot %s"></span>%s</td><td class="num">%s</td><td>%s</td>'
                   '<td class="note">%s</td></tr>' % (seq, ' class="bad"' if seq == self.fault else "", seq, OF_KIND[kind], m.NAMES[kind],
                                                      "{:,}".format(m.count_of(content)), html.escape(says(kind, content)), marks))
        if len(shown) < len(self.frames):
            yield '<tr><td colspan="5" class="note">%d entries in between aren\'t listed</td></tr>' % (len(self.frames) - len(shown))

    def details(self):
        """What the page's script shows of an entry."""
        return {seq: {"line": entry_line(seq, kind, content), "hash": self.chain[seq].hex(), "state": self.states.get(seq)}
                for seq, kind, content in self.frames[:MOST_ROWS]}

    def disagreement(self):
        """Two cards: what is claimed, and what it disagrees with."""
        e, looks = self.evidence, ("bad", "good")
        if e and e["form"] != 3:
            looks = ("bad", "bad") if e["form"] == 1 else ("", "bad")
            top, other = e["auths"]
            if e["form"] == 1:
                cards = [("Authenticator 0", signed_lines(top, e["key"])), ("Authenticator 1", signed_lines(other, e["key"]))]
            else:
                frames = m.read(m.read_frames, e["body"]) or []
                chain = m.chain_of(e["before"], frames)
                cards = [("The signed chain", ["entries %d to %d, whose last hash is signed" % (e["start"], top[0]),
                                               "hash of entry %d:" % other[0], chain.get(other[0], b"").hex()]),
                         ("The other authenticator", signed_lines(other, e["key"]))]
        elif self.fault is not None:
            seq, kind, content = self.frames[self.fault - self.start]
            entry = lambda k, c: ["%s at count %s" % (m.NAMES[k], "{:,}".format(m.count_of(c))), says(k, c)]
            cards = [("The log says", entry(kind, content)),
                     ("The guest does", entry(*self.told) if self.told else ["nothing more: it stands, or this input can't be taken"])]
        else:
            return ""
        title = FORMS[e["form"]] if e else "Entry %d doesn't replay" % self.fault
        if e:
            title += ". It %s under its key." % ("holds" if m.stands(e) else "doesn't hold")
        return "<h2>What disagrees</h2><p>%s</p><div class=\"pair\">%s</div>" % (html.escape(title), "".join(
            "<div class=\"card %s\"><h3>%s</h3>%s</div>" % (how, name, "".join("<p class=\"mono\">%s</p>" % html.escape(it) for it in lines))
            for how, (name, lines) in zip(looks, cards)))

    def page(self):
        parts = []
        if self.line is not None:
            how = "good" if self.line.startswith("accepted") else "bad"
            parts.append('<p class="verdict %s">%s</p><p class="by">by %s</p>' % (how, html.escape(self.line), self.by))
            parts.append("<dl>%s</dl>" % "".join("<div><dt>%s</dt><dd>%s</dd></div>" % (k, html.escape(v)) for k, v in self.facts()))
        parts.append(self.disagreement())
        if self.frames:
            states = "States are shown by %s, before the inputs at that count." % self.states_by if self.states else "No states are shown."
            parts.append("<h2>Timeline</h2><div class=\"scroll\">%s</div>" % self.timeline())
            parts.append("<h2>Entries</h2><p class=\"note\">Choose one to see its hash and the guest's state. %s</p><div class=\"both\">"
                         "<div class=\"scroll\"><table><thead><tr><th>no.</th><th>kind</th><th>count</th><th>says</th><th></th></tr></thead>"
                         "<tbody>%s</tbody></table></div><aside id=\"detail\"></aside></div>" % (states, "\n".join(self.rows())))
        data = json.dumps(self.details()).replace("</", "<\\/")
        title = "A segment of a log" if self.segment is not None else "Evidence"
        front, rest = PAGE_TEXT.replace("@TITLE@", title).split("@BODY@")
        between, end = rest.split("@DATA@")
        return "".join((front, "\n".join(parts), between, data, end))


def signed_lines(auth, key):
    ok = m.verifies(key, auth)
    return ["entry %d, hash" % auth[0], auth[1].hex(), "the signature %s" % ("verifies" if ok else "doesn't verify")]


PAGE_TEXT = """<!doctype html>
<html lang="en"><head><meta charset="utf-8"><meta name="viewport" content="width=device-width, initial-scale=1">
<title>avm: a segment</title>
<style>
:root { color-scheme: light dark; --ink: #1f2328; --soft: #59636e; --sheet: #ffffff; --card: #f6f8fa; --edge: #d1d9e0;
  --inputs: #0969da; --outputs: #1a7f37; --snapshots: #9a6700; --signed: #8250df; --bad: #cf222e; --badsheet: #ffebe9;
  --goodsheet: #dafbe1; --chosen: #ddf4ff; }
@media (prefers-color-scheme: dark) { :root { --ink: #e6edf3; --soft: #9da7b3; --sheet: #0d1117; --card: #161b22; --edge: #3d444d;
  --inputs: #58a6ff; --outputs: #3fb950; --snapshots: #d29922; --signed: #bc8cff; --bad: #ff7b72; --badsheet: #3d1513;
  --goodsheet: #0f2d18; --chosen: #12304f; } }
body { margin: 0 auto; max-width: 1180px; padding: 24px; background: var(--sheet); color: var(--ink);
  font: 15px/1.5 system-ui, "DejaVu Sans", sans-serif; }
h1 { font-size: 22px; margin: 0 0 12px; } h2 { font-size: 17px; margin: 28px 0 8px; } h3 { font-size: 14px; margin: 0 0 6px; }
.verdict { font: bold 20px/1.4 ui-monospace, "DejaVu Sans Mono", monospace; padding: 10px 14px; border-radius: 8px; margin: 0; }
.verdict.good { background: var(--goodsheet); border-left: 6px solid var(--outputs); }
.verdict.bad { background: var(--badsheet); border-left: 6px solid var(--bad); }
.by, .note, dt { color: var(--soft); font-size: 13px; } .by { margin: 4px 0 12px; }
dl { display: flex; flex-wrap: wrap; gap: 8px 28px; margin: 0; } dd { margin: 0; } dt { margin: 0; }
.pair { display: grid; grid-template-columns: 1fr 1fr; gap: 16px; } @media (max-width: 700px) { .pair { grid-template-columns: 1fr; } }
.card { background: var(--card); border: 1px solid var(--edge); border-radius: 8px; padding: 12px 14px; overflow-wrap: anywhere; }
.card.bad { border-left: 6px solid var(--bad); } .card.good { border-left: 6px solid var(--outputs); }
.card p { margin: 0 0 4px; } .mono, code, pre { font: 13px/1.5 ui-monospace, "DejaVu Sans Mono", monospace; }
.scroll { overflow-x: auto; } svg { width: 100%; min-width: 640px; height: auto; display: block; }
svg text { fill: var(--soft); font-size: 12px; } .lane { fill: var(--ink); } .rail { stroke: var(--edge); } .grid { stroke: var(--edge);
  stroke-dasharray: 2 4; } .faultline { stroke: var(--bad); stroke-width: 2; stroke-dasharray: 5 4; pointer-events: none; }
.mark { cursor: pointer; } .mark.chosen rect, .mark.chosen circle { stroke: var(--ink); stroke-width: 2; }
.inputs { --c: var(--inputs); } .outputs { --c: var(--outputs); } .snapshots { --c: var(--snapshots); } .signed { --c: var(--signed); }
.mark rect, .mark circle { fill: var(--c); } .mark.bad rect, .mark.bad circle { fill: var(--bad); }
.both { display: grid; grid-template-columns: minmax(0, 3fr) minmax(0, 2fr); gap: 20px; align-items: start; }
@media (max-width: 900px) { .both { grid-template-columns: 1fr; } }
table { border-collapse: collapse; width: 100%; } th { text-align: left; font-weight: 600; font-size: 13px; color: var(--soft); }
td, th { padding: 4px 8px; border-bottom: 1px solid var(--edge); vertical-align: top; overflow-wrap: anywhere; }
td:nth-child(-n+3), th { white-space: nowrap; overflow-wrap: normal; } .num { text-align: right; font-variant-numeric: tabular-nums; }
tbody tr[data-seq] { cursor: pointer; } tr.bad td { background: var(--badsheet); } tr.chosen td { background: var(--chosen); }
.dot { display: inline-block; width: 10px; height: 10px; border-radius: 3px; margin-right: 6px; background: var(--c); }
aside { position: sticky; top: 12px; background: var(--card); border: 1px solid var(--edge); border-radius: 8px; padding: 12px 14px;
  overflow-wrap: anywhere; max-height: 90vh; overflow-y: auto; }
.registers { display: grid; grid-template-columns: repeat(auto-fill, minmax(124px, 1fr)); gap: 0 12px; margin: 6px 0; }
.registers span { white-space: pre; }
</style></head><body>
<h1>@TITLE@</h1>
@BODY@
<script type="application/json" id="data">@DATA@</script>
<script>
const data = JSON.parse(document.getElementById('data').textContent), detail = document.getElementById('detail');
function add(parent, name, text, kind) {
  const made = document.createElement(name);
  if (text !== undefined) made.textContent = text;
  if (kind) made.className = kind;
  parent.appendChild(made);
  return made;
}
function choose(seq) {
  for (const it of document.querySelectorAll('[data-seq]')) it.classList.toggle('chosen', it.dataset.seq === String(seq));
  const entry = data[seq];
  if (!entry || !detail) return;
  detail.textContent = '';
  add(detail, 'h3', 'Entry ' + seq);
  add(detail, 'p', entry.line, 'mono');
  add(detail, 'p', 'hash', 'note');
  add(detail, 'p', entry.hash, 'mono');
  if (!entry.state) { add(detail, 'p', 'No state is shown for this entry.', 'note'); return; }
  add(detail, 'h3', entry.state[0]);
  const registers = entry.state.slice(1).filter(it => it[0] === 'x'), words = entry.state.slice(1).filter(it => it[0] !== 'x');
  for (const [title, lines] of [['registers that aren\\'t 0', registers], ['memory', words]]) {
    if (!lines.length) continue;
    add(detail, 'p', title, 'note');
    const grid = add(detail, 'div', undefined, 'registers mono');
    for (const it of lines) add(grid, 'span', it[0] === 'x' ? it.replace(' ', it.length < 12 ? '  ' : ' ') : it);
  }
}
for (const it of document.querySelectorAll('[data-seq]')) {
  it.addEventListener('click', () => choose(it.dataset.seq));
  it.addEventListener('keydown', e => { if (e.key === 'Enter') choose(it.dataset.seq); });
}
const first = document.querySelector('tr.bad') || document.querySelector('tr[data-seq]');
if (first) choose(first.dataset.seq);
</script></body></html>
"""


def main(words):
    options = {name[2:]: value for name, value in zip(words[1::2], words[2::2])}
    known = {"segment", "key", "auths", "evidence", "from", "words", "program", "states"}
    if len(words) % 2 == 0 or set(options) - known or not {"segment", "evidence"} & set(options) or ("from" in options) != ("words" in options):
        print(__doc__)
        return 3
    try:
        page = Report(options).page()
    except ValueError:
        print("report: the segment, the authenticators or the evidence isn't one")
        return 3
    with open(words[0], "w", encoding="utf-8") as f:
        f.write(page)
    print("report: %s, %d bytes" % (words[0], len(page.encode())))
    return 0


if __name__ == "__main__":
    sys.exit(main(sys.argv[1:]))
