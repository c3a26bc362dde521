#!/usr/bin/env python3
"""Respells the repository's own definitions and lemmas as today's Rattle spells its own: words in snake case, a type's name as it is.

usage: python3 tools/respell.py [--list]      at the top of the repository, once, after port.py

It reads which names the files of specs/ and proofs/ declare, and turns each in every .rt, .antt and .edit file of crates/.
A name that Rattle makes (After-.., Need-..) and a name of the library stay. --list prints the names and turns nothing.
"""
import collections
import os
import re
import sys

SPLIT = re.compile(r"([\s(){}.,;:\u27e8\u27e9\u2254]+)")
WORDS = {"abbrev", "unfoldable", "opaque", "pub", "private"}
# names that would fall together with another once respelled
OTHER = {
    "all_lines": "all_lines_lem",
    "in_order": "in_order_lem",
    "last_digits": "last_digits_lem",
    "passes_at": "passes_at_lem",
    "zero_or": "zero_or_lem",
    "wrong_name": "wrong_name_lem",
}


def files():
    for folder, dirs, names in os.walk("crates"):
        dirs[:] = sorted(d for d in dirs if d != "out")
        for name in sorted(names):
            if name.endswith((".rt", ".antt", ".edit")):
                yield os.path.join(folder, name)


def declared(text):
    """The names that begin a signature: definitions, lemmas, fields and constructors."""
    for line in text.split("\n"):
        if line.lstrip().startswith("--"):
            continue
        m = re.match(r"\s*((?:(?:abbrev|unfoldable|opaque|pub|private)\s+)*)(record\s+|data\s+)?([^\s(){}.,;:\u03bb]+)\s*(?:[({\[].*)?:(?:\s|$)", line)
        if m and m.group(3) not in WORDS and not m.group(2):
            yield m.group(3)


def aliases(text):
    """The names given to others where they are imported."""
    for m in re.finditer(r"^(?:ghost )?use [^;\n]+", text, re.M):
        yield from re.findall(r" as ([a-z]\w*[A-Z]\w*)", m.group(0))


def imported(text, crates):
    """The names taken from a library of the kit."""
    for m in re.finditer(r"^(ghost )?use ([^;\n]+)", text, re.M):
        if m.group(1) is None and text.startswith("//"):
            continue
        path = m.group(2)
        head = re.match(r"Rattle\.(\w+)", path)
        if head and head.group(1) in crates:
            continue
        yield from (w for w in SPLIT.split(path) if w and not SPLIT.fullmatch(w))


def snake(word):
    """A camel case word in snake case."""
    return re.sub(r"(?<=[^\W\d_A-Z])(?=[A-Z])|(?<=[0-9\u2080-\u2089])(?=[A-Z])", "_", word).lower()


def turned(name):
    if not re.search(r"[^\W\d_]", name) or "\u25cc" in name:
        return name
    parts = name.replace("\u2032", "'").split("-")
    out = ""
    for i, part in enumerate(parts):
        fact = bool(re.match(r"[A-Z]", part)) and bool(re.search(r"[a-z]", part))
        word = part if fact else snake(part) if len(part) > 1 and re.search(r"[a-z\u03c0].*[A-Z]", part) else part
        if i == 0:
            out = word
        else:
            out += ("-" if fact or last_fact else "_") + word
        last_fact = fact
    return out


def main():
    crates = {line.split(":")[0].split()[0] for line in open("crates.txt", encoding="utf-8") if line.strip() and not line.startswith("#")}
    texts = {f: open(f, encoding="utf-8").read() for f in files()}
    own, kit = collections.Counter(), set()
    for f, text in texts.items():
        if f.endswith(".antt"):
            own.update(declared(text))
        if not f.endswith(".edit"):
            own.update(aliases(text))
        if f.endswith(".antt"):
            kit.update(imported(text, crates))
        elif f.endswith(".rt"):
            kit.update(imported("\n".join(line for line in text.split("\n") if line.startswith("ghost use ")), crates))
    table = respelled(own, kit, texts)
    if "--list" in sys.argv:
        report(table, own, kit, texts)
        return
    for f, text in texts.items():
        here = table if f.endswith(".antt") else {old: new for old, new in table.items() if old not in OTHER}
        new = "".join(here.get(w, w) for w in SPLIT.split(text))
        if new != text:
            with open(f, "w", encoding="utf-8") as out:
                out.write(new)


def respelled(own, kit, texts):
    """The new name of each; a lemma that would have a definition's name, or one that is taken, gets _lem."""
    stand = {name for name in own if turned(name) == name and name not in OTHER} | kit
    for f, text in texts.items():
        if f.endswith(".antt"):
            words = SPLIT.split(text)
            stand.update(w for i, w in enumerate(words) if re.fullmatch(r"[a-z]\w*_[\w']*", w) and not (i and words[i - 1].endswith(".")))
    camel = {OTHER.get(name, turned(name)) for name in own if name not in kit and "-" not in name and turned(name) != name}
    table = {}
    for name in own:
        new = OTHER.get(name, turned(name))
        if new != name and name not in kit:
            if "-" in name and (new in camel or new in stand):
                new += "_lem"
            table[name] = new
    return table


def report(table, own, kit, texts):
    back = collections.defaultdict(list)
    for old, new in table.items():
        back[new].append(old)
    print(len(table), "names")
    for name in sorted(n for n in own if n in kit and turned(n) != n):
        print("of the kit too:", name, turned(name))
    for new, olds in sorted(back.items()):
        if len(olds) > 1:
            print("together:", new, olds)
        if new in own:
            print("declared already:", new, olds)
        if new in kit:
            print("of the kit:", new, olds)
    for f, text in texts.items():
        words = SPLIT.split(text)
        seen = collections.Counter(w for i, w in enumerate(words) if w in back and not (i and words[i - 1].endswith(".")))
        used = set(words)
        for new in seen:
            olds = [o for o in back[new] if o in used]
            if olds:
                print("bound in", f, new, olds, seen[new])


if __name__ == "__main__":
    main()
