"""Holds what the program makes and accepts of signatures of two levels against another program's HSS: what that one signs the program
narrows, and what the program widens that one accepts; a changed byte neither.

Usage: compare_hss.py PROGRAM FOLDER -- OTHER.. . Files are made in FOLDER."""
import subprocess
import sys

import both
import model as m

# private keys: LMS type, LM-OTS type, I, SEED. The first pair is RFC 8554's (appendix F, test case 2), with its public keys' last 32 bytes.
PAIRS = [
    ((6, 3, "d08fabd4a2091ff0a8cb4ed834e74534", "558b8966c48ae9cb898b423c83443aae014a72f1b1ab5cc85cf1d892903b5439"),
     (5, 4, "215f83b7ccb9acbcd08db97b0d04dc2b", "a1c4696e2608035a886100d05cd99945eb3370731884a8235e2fb3d4d71f2547"),
     ("32a58885cd9ba0431235466bff9651c6c92124404d45fa53cf161c28f1ad5a8e", "a1cd035833e0e90059603f26e07ad2aad152338e7a5e5984bcd5f7bb4eba40b7")),
    ((5, 1, "00" * 16, "01" * 32), (5, 3, "02" * 16, "03" * 32), None),
    ((5, 4, "04" * 16, "05" * 32), (5, 2, "06" * 16, "07" * 32), None),
]


def other(command, lines):
    done = subprocess.run(command, input="".join(line + "\n" for line in lines), capture_output=True, text=True, timeout=3600, check=True)
    return done.stdout.split()


def signed(n):
    """The number, the hash and the signed text of authenticator n."""
    h = bytes([n]) * 32
    return n, h, m.signed_text(n, h)


def narrows(c, command, top, bottom):
    """The other program's signatures, narrowed; and with one byte changed, refused by both."""
    leaves = [(0, 1), (3, 4), (31, 31), (31, 0)]
    lines = ["sign %s %s %d %d %s" % (top.private().hex(), bottom.private().hex(), q, r, signed(i + 1)[2].hex()) for i, (q, r) in enumerate(leaves)]
    sigs = [bytes.fromhex(text) for text in other(command, lines)]
    auths = [m.put_auth(*signed(i + 1)[:2], sig) for i, sig in enumerate(sigs)]
    words = "narrow --key top --auths wide --public public --out out".split()
    c.both("narrow", words, {"top": top.public(), "wide": b"".join(auths)})
    changed = [sigs[0][:at] + bytes([sigs[0][at] ^ 4]) + sigs[0][at + 1:] for at in range(0, len(sigs[0]), 97)]
    text = signed(1)[2].hex()
    told = other(command, ["verify %s %s %s" % (top.public().hex(), text, sig.hex()) for sig in [sigs[0]] + changed])
    if told != ["valid"] + ["invalid"] * len(changed):
        c.failed.append("the other program accepts a changed signature, or not its own")
    for at, sig in enumerate(changed):
        want = ("refused badauth 0\n", 2)
        got = c.answers(words, {"top": top.public(), "wide": m.put_auth(*signed(1)[:2], sig)})
        if got == want:
            c.passed += 1
        elif got != both.NOT_BUILT:
            c.failed.append("byte %d changed: expected %r, got %r" % (97 * at, want, got))


def widens(c, command, top, bottom):
    """What the program makes of a key's authenticators, by an endorsement that it makes too, for the other program."""
    files = {"top": top.private(), "pub": bottom.public(), "key": bottom.private()}
    c.both("roll", "roll --store roll --key top".split(), files)
    c.both("enroll", "enroll --store roll --key top --public pub --endorse end".split(), files)
    files["auths"] = b"".join(m.put_auth(*signed(n)[:2], bottom.sign(n, signed(n)[2])) for n in (1, 2, 30))
    c.both("widen", "widen --endorse end --auths auths --out wide".split(), files)
    r, lines = m.Reader(files["wide"]), []
    for n in (1, 2, 30):
        sig = m.read_auth(r, m.LONGEST_HSS)[2]
        lines.append("verify %s %s %s" % (top.public().hex(), signed(n)[2].hex(), sig.hex()))
    told = other(command, lines)
    if told != ["valid"] * 3:
        c.failed.append("the other program answers %r of what was widened" % told)
    else:
        c.passed += 1


def main():
    cut = sys.argv.index("--")
    c, command = both.Both(*sys.argv[1:cut]), sys.argv[cut + 1:]
    for one, two, roots in PAIRS:
        top, bottom = (m.Key(lms, ots, bytes.fromhex(i), bytes.fromhex(seed)) for lms, ots, i, seed in (one, two))
        if roots and (top.public()[24:].hex(), bottom.public()[24:].hex()) != roots:
            c.failed.append("the public keys aren't RFC 8554's")
        narrows(c, command, top, bottom)
        widens(c, command, top, bottom)
    return c.end("HSS: ")


if __name__ == "__main__":
    sys.exit(main())
