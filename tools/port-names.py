#!/usr/bin/env python3
"""Spells this repository's own definitions, lemmas and record fields as today's Rattle spells its own: words in snake case, facts in camel case.

usage: port-names.py [--list]     at the top of the repository, once, after port.py

A name counts where specs/ or proofs/ declare or bind it and no library lends it to that file. Functions of src/, exported names, strings and
inputs stay. In the walks proofs/F/Proof.antt only names that come from elsewhere are turned. --list prints old and new, and what would meet.
"""

import collections
import glob
import re
import sys

OWN = {line.split(":")[0].split()[0] for line in open("crates.txt") if line.strip() and not line.startswith("#")}
NAME = r"[^\s(){}.;,@\"«»`]+"
USE = re.compile(r"(?m)^([ \t]*(?:pub )?(?:ghost )?use )([^\s;{]+?)(?:\.\{([^}]*)\})?( as [^\s;]+)?(;?)$")
DECLARED = re.compile(rf"(?m)^([ \t]*)((?:(?:pub|abbrev|unfoldable) )*)({NAME}) (?:\{{[^{{}}\n]*\}} |\([^()\n]*\) )*: ([^\n]*)")
RECORD = re.compile(r"(?m)^(?:pub )?(?:record|data) (\S+)")


# Lemmas that would have their function's name.
LEMMAS = {
    name: name.replace("-", "_") + "_lem"
    for name in "cell-of lone-at lines-of line-of flat-map run-of is-nan nan-bits is-at document-answer".split()
}
# Lemmas that have a definition's new name already, with the folder in which that is so.
MET = {"entry_in": ("crates/walk/", "entry_in_lem"), "two_digits": ("crates/words/", "two_digits_lem")}


def is_own(path):
    steps = path.split(".")
    return steps[0] == "Rattle" and len(steps) > 1 and steps[1] in OWN


def odd(name):
    return bool(re.search(r"[\w'′]-[\w'′]", name) or re.match(r"[a-z][\w']*[A-Z]", name)) and "◌" not in name


def snake(name):
    words = re.sub(r"(?<=[a-z0-9])[A-Z]", lambda m: "_" + m[0].lower(), name)
    words = re.sub(r"(?<=[A-Z])[A-Z]", lambda m: m[0].lower(), words)
    return re.sub(r"(?<=[\w'])-(?=[\w'])", "_", words)


def camel(name):
    return "".join(word[:1].upper() + word[1:] for word in snake(name).split("_"))


def uses(text):
    """The names that the file's use lines bring in: own and others'."""
    own, others = set(), set()
    for m in USE.finditer(text):
        names = [x.strip() for x in (m[3] or "").split(",") if x.strip()]
        for name in names:
            old, _, new = name.partition(" as ")
            (own if is_own(m[2]) else others).add(old)
            if new:
                own.add(new.strip())
    return own, others


def code(text, mark):
    """The lines with their comment apart."""
    for line in text.split("\n"):
        at = re.search(rf"(?:^|\s){mark}", line)
        yield (line[: at.end() - len(mark)], line[at.end() - len(mark) :]) if at else (line, "")


def files():
    antt = sorted(glob.glob("crates/*/specs/**/*.antt", recursive=True) + glob.glob("crates/*/proofs/**/*.antt", recursive=True))
    rt = sorted(glob.glob("crates/*/src/**/*.rt", recursive=True))
    return antt, rt


def is_walk(path):
    return path.endswith("/Proof.antt")


def tokens(line):
    """Each name of a line with what stands before it."""
    for m in re.finditer(NAME, line):
        yield m, line[m.start() - 1] if m.start() else " "


def collect(antt):
    facts, seen, fields = set(), collections.defaultdict(set), set()
    for path in antt:
        text = open(path).read()
        if is_walk(path):
            continue
        _, others = uses(text)
        plain = "\n".join(c for c, _ in code(text, "--"))
        plain = USE.sub("", plain)
        for m in DECLARED.finditer(plain):
            if re.match(r"[a-z]", m[3]) and re.search(r"(?:^|→ )Type 0(?: where)?$", m[4].strip()):
                facts.add(m[3])
            if m[1] and "pub " in m[2]:
                fields.add(m[3])
        for line in plain.split("\n"):
            for m, before in tokens(line):
                if before != "." and m[0] not in others and odd(m[0]):
                    seen[m[0]].add(path)
    return facts, seen, fields


def table(antt):
    facts, seen, fields = collect(antt)
    new = {name: snake(name) for name in seen}
    for name in facts:
        new[name] = camel(name)
    same = collections.Counter(new.values())
    new.update({old: n + "_lem" for old, n in new.items() if same[n] > 1 and "-" in old})
    new.update({old: name for old, name in LEMMAS.items() if old in new})
    return {old: n for old, n in new.items() if old != n}, facts, seen, fields


def turn_line(line, new, may, fields):
    def one(m):
        name = m[0]
        before = line[m.start() - 1] if m.start() else " "
        if name not in new:
            return name
        if before == ".":
            return new[name] if name in fields else name
        return new[name] if may(name) else name

    return re.sub(NAME, one, line)


def turn(path, new, fields, declared):
    text = open(path).read()
    new = {**new, **{old: name for old, (folder, name) in MET.items() if path.startswith(folder)}}
    fields = fields | set(MET)
    antt = path.endswith(".antt")
    own, others = uses(text)
    mark = "--" if antt else "//"
    if antt and not is_walk(path):
        may = lambda name: name not in others
    else:
        may = lambda name: name in own
    out = []
    for c, comment in code(text, mark):
        m = USE.match(c)
        if m:
            if m[3] and is_own(m[2]):
                names = re.sub(NAME, lambda k: new.get(k[0], k[0]), m[3])
                c = f"{m[1]}{m[2]}.{{{names}}}{m[4] or ''}{m[5]}"
            elif is_own(m[2]) and not m[3]:
                head, _, last = m[2].rpartition(".")
                c = f"{m[1]}{head}.{new.get(last, last)}{m[4] or ''}{m[5]}"
        else:
            c = turn_line(c, new, may, fields)
        out.append(c + turn_words(comment, new, declared))
    return "\n".join(out)


def turn_words(text, new, declared):
    """The names between back quotes, those too that port.py turned."""

    def one(m):
        plain = snake(m[0])
        return new.get(m[0]) or (plain if odd(m[0]) and plain in declared else m[0])

    return re.sub(r"`([^`\n]+)`", lambda k: "`" + re.sub(NAME, one, k[1]) + "`", text)


def meetings(antt, rt, new, fields):
    """Files in which two names would fall together."""
    for path in antt + rt:
        if is_walk(path):
            continue
        text = open(path).read()
        plain = "\n".join(c for c, _ in code(text, "--" if path.endswith(".antt") else "//"))
        names = {m[0] for line in plain.split("\n") for m, _ in tokens(line)}
        for old in sorted(names & set(new)):
            if new[old] in names and new[old] not in MET:
                yield path, old, new[old]
            for other in names & set(new):
                if other < old and new[other] == new[old]:
                    yield path, old + " " + other, new[old]
    modules = collections.defaultdict(lambda: collections.defaultdict(set))
    for path in antt:
        if not is_walk(path):
            for m in DECLARED.finditer(open(path).read()):
                if not m[1]:
                    modules[path][new.get(m[3], m[3])].add(m[3])
    for path, names in modules.items():
        for name, olds in names.items():
            if len(olds) > 1:
                yield path, " ".join(sorted(olds)), name


def main():
    antt, rt = files()
    new, facts, seen, fields = table(antt)
    if "--list" in sys.argv:
        for old in sorted(new):
            print(old, new[old])
        for path, old, name in meetings(antt, rt, new, fields):
            print("meets:", path, old, name)
        print("facts:", " ".join(sorted(facts)))
        print("fields:", " ".join(sorted(f for f in fields if f in new)))
        return
    declared = {m[3] for path in antt if not is_walk(path) for m in DECLARED.finditer(open(path).read())}
    for path in antt + rt:
        text = turn(path, new, fields, declared)
        if text != open(path).read():
            open(path, "w").write(text)
    for path in ["README.md"] + sorted(glob.glob("docs/**/*.md", recursive=True)):
        text = turn_words(open(path).read(), new, declared)
        if text != open(path).read():
            open(path, "w").write(text)


if __name__ == "__main__":
    main()
