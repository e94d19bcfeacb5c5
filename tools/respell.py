#!/usr/bin/env python3
"""respell.py [FOLDER]: turns the names of definitions, lemmas and their variables in crates/ from lower camel case to
snake case, as today's Rattle spells them: sameBytes becomes same_bytes. It goes by the form of a word alone, in texts
and comments too; types, facts and the names of functions of src/ have another form. It was run once, behind port.py,
over crates/, README.md and docs/. With --list it prints each name with its new one, and where two names fall together.
"""

import os
import re
import sys

# A segment of a name, between dashes: begins small, has a capital that follows no underscore.
SEGMENT = re.compile(r"^[a-z][a-z0-9]*(?:[A-Z][A-Za-z0-9']*)$")
TOKEN = re.compile(r"[A-Za-z0-9_'ℕℤκΛ₀-₉-]+")
# Not ours, or no names.
KEEP = {"uPD765A", "nDisk"}
# Names with hexadecimal digits.
ODD = {"getD": "get_or", "and1F": "and_1f", "and3F": "and_3f", "and9F": "and_9f", "andBF": "and_bf", "andFF": "and_ff", "seekC1": "seek_c1"}


def segment(word):
    if word in KEEP or not SEGMENT.match(word):
        return word
    if word in ODD:
        return ODD[word]
    word = re.sub(r"(Over)(\d)", r"\1_\2", word)
    return re.sub(r"(?<!^)(?<!_)([A-Z]+)", lambda m: "_" + m.group(1), word).lower()


def respell(token):
    return "-".join(segment(w) for w in token.split("-"))


def turn(text):
    return TOKEN.sub(lambda m: respell(m.group(0)), text)


def files(root, folders):
    for top in folders:
        path = os.path.join(root, top)
        if os.path.isfile(path):
            yield path
        for folder, dirs, names in os.walk(path):
            dirs[:] = sorted(d for d in dirs if d not in ("out", ".git"))
            for name in sorted(names):
                if name.endswith((".rt", ".antt", ".edit", ".md")):
                    yield os.path.join(folder, name)


def main(argv):
    only_list = "--list" in argv
    argv = [a for a in argv if a != "--list"]
    root = argv[0] if argv else "."
    old, new = {}, {}
    for path in files(root, ["crates", "README.md", "docs"]):
        with open(path, encoding="utf-8") as f:
            text = f.read()
        for token in TOKEN.findall(text):
            to = respell(token)
            old.setdefault(token, path)
            if to != token:
                new.setdefault(to, set()).add(token)
        if not only_list:
            turned = turn(text)
            if turned != text:
                with open(path, "w", encoding="utf-8") as f:
                    f.write(turned)
    for to, tokens in sorted(new.items()):
        both = sorted(tokens) + ([to] if to in old else [])
        if only_list:
            print(" ".join(sorted(tokens)), "->", to, "(there already: %s)" % old[to] if to in old else "")
        elif len(both) > 1:
            print("one name now:", ", ".join(both))
    return 0


if __name__ == "__main__":
    raise SystemExit(main(sys.argv[1:]))
