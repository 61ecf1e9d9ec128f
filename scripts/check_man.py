"""Holds man/avm.1 and completions/ against the usage, which comes on standard input, and the page's lines against
docs/FORMATS.md."""
import re
import sys

MARKS = {"": "", "Read, but not built yet": "(Not built yet.)"}


def read(path):
    with open(path, encoding="utf-8") as f:
        return f.read()


def of_usage(text):
    """The forms of each command as (words, heading above it)."""
    forms, heading = [], ""
    for line in text.splitlines():
        if re.match(r"  \w+ --", line):
            forms.append((line.strip(), heading))
        elif line.endswith(":") and not line.startswith(" "):
            heading = line.split(" (")[0]
    return forms


def of_page(page):
    """The same of the manual page, with the text below each."""
    parts = re.split(r'^\.S[SH] "?(.*?)"?$', page, flags=re.M)[1:]
    return {title: body for title, body in zip(parts[::2], parts[1::2])}


def options(words):
    return re.findall(r"--[a-z]+", words)


def of_bash(text):
    return {name: words.split() for name, words in re.findall(r"^        (\w+)\) options='(.*)' ;;$", text, re.M)}


def of_zsh(text):
    return {name: words.split() for name, words in re.findall(r"^        (\w+)\) options=\((.*)\) ;;$", text, re.M)}


def main():
    wrong = []
    forms = of_usage(sys.stdin.read())
    page = read("man/avm.1").replace("\\-", "-")
    sections = of_page(page)
    wanted = {}
    for words, heading in forms:
        name = words.split()[0]
        known = wanted.setdefault(name, [])
        known += [it for it in options(words) if it not in known]
        if words not in sections:
            wrong.append("man: no section '%s'" % words)
        elif [it for it in MARKS.values() if it and it in sections[words]] != [it for it in [MARKS[heading]] if it]:
            wrong.append("man: %s isn't marked as in the usage (%s)" % (name, MARKS[heading] or "no mark"))
    version = re.search(r"^version=(.*)$", read("avm"), re.M).group(1)
    if '"avm %s"' % version not in page:
        wrong.append("man: its version isn't %s" % version)
    titles = {words for words, _ in forms}
    wrong += ["man: '%s' isn't in the usage" % title for title in sections if " --" in title and title not in titles]
    described = set(re.findall(r"--[a-z]+", sections["OPTIONS"]))
    for option in sorted({it for known in wanted.values() for it in known} - described):
        wrong.append("man: OPTIONS lacks %s" % option)
    for shell, found in (("bash", of_bash(read("completions/avm.bash"))), ("zsh", of_zsh(read("completions/_avm")))):
        for name in sorted(set(wanted) | set(found)):
            if sorted(found.get(name, [])) != sorted(wanted.get(name, [])):
                wrong.append("%s: %s has %s, and the usage %s" % (shell, name, found.get(name), wanted.get(name)))
    listed = re.search(r"compgen -W '(keygen[^']*)'", read("completions/avm.bash")).group(1).split()
    told = re.findall(r"^        '([a-z-]+):", read("completions/_avm"), re.M)
    for shell, names in (("bash", listed), ("zsh", told)):
        if [it for it in names if not it.startswith("-")] != [it for it in dict.fromkeys(names) if it in wanted] \
                or set(wanted) - set(names):
            wrong.append("%s: its commands aren't those of the usage" % shell)
    table = read("docs/FORMATS.md").split("\n## Lines")[1].split("\n## ")[0]
    plain = re.sub(r"^\.[A-Z]+ ", "", page, flags=re.M).replace('"', "")
    for row in re.findall(r"^\| (`.*?) \| \d", table, re.M):
        for line in re.findall(r"`([^`]+)`", row):
            if line not in plain:
                wrong.append("man: no line '%s'" % line)
    print("\n".join(wrong + ["man: %d commands, %d wrong" % (len(wanted), len(wrong))]))
    return 1 if wrong else 0


if __name__ == "__main__":
    sys.exit(main())
