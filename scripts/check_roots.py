"""The page roots of RAMs whose page f is filled with the byte 7f + 1, by hashlib alone (docs/FORMATS.md, Roots), against the
roots that stand in the tests of page_tree (crates/state_tests)."""

import hashlib
import re
import sys


def page(byte):
    return bytes([byte % 256]) * 4096


def root(pages):
    if len(pages) == 1:
        return hashlib.sha256(b"\x00" + pages[0]).digest()
    half = len(pages) // 2
    return hashlib.sha256(b"\x01" + root(pages[:half]) + root(pages[half:])).digest()


def main():
    cases = {str(n): [page(7 * f + 1) for f in range(n)] for n in (1, 2, 8, 256)}
    changed = list(cases["256"])
    changed[3] = changed[255] = page(200)
    cases["256, of which two are changed"] = changed
    with open("crates/state_tests/src/trees.rt", encoding="utf-8") as file:
        typed = "".join(re.findall(r"0x([0-9a-f]{2})", file.read()))
    wrong = [name for name, pages in cases.items() if root(pages).hex() not in typed]
    for name in wrong:
        print(f"check_roots: the root of {name} pages is not the one that the tests expect")
    if not wrong:
        print(f"check_roots: {len(cases)} roots agree")
    return 1 if wrong else 0


sys.exit(main())
