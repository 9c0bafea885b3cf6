#!/usr/bin/env python3
"""Spells this repository's own definitions, lemmas and labels as today's Rattle does: words in snake case, types as they are.

usage: python3 tools/respell.py [--map]        at the top of the repository, once, behind port.py

It collects each name that the .antt files of specs/ and proofs/ declare, but for the labels of generated goals, and
writes `lateEvents` as `late_events`, `late-most` as `late_most`. Where two names fall together, the one of specs/ keeps
the plain spelling and the other gets `_lem` behind it. Functions of src/, constants, fields, exported names and strings
stay. It turns .antt and .rt files, the must-fail edits and planted/, and in the pages what stands between backticks.
In comments, edits and pages it also turns the names that port.py turned in the code.
--map prints old and new names and writes nothing.
"""

import os
import re
import sys

PARTS = ("specs", "proofs")
WORDS = "pub|abbrev|unfoldable|ruleset|data|record|package"
DECLARED = re.compile(rf"^(\s*)((?:{WORDS})\s+)*([^\s(){{}}.;,\"λ:]+)((?:\s+[({{].*?)?)\s+:(?:\s|$)(.*)")
NAME = re.compile(r"[^\s(){}.;,@\"«»\[\]|`]+")
USE = re.compile(r"\buse (\S+)\.\{([^}]*)\}")
CODE = re.compile(r"\"(?:[^\"\\\n]|\\.)*\"|//[^\n]*")


def texts(root, ends):
    for folder, folders, files in os.walk(os.path.join(root, "crates")):
        folders[:] = sorted(it for it in folders if it != "out")
        for it in sorted(files):
            if it.endswith(ends):
                yield os.path.join(folder, it)


def declared(root):
    """Each declared name, with the best place where it is declared: 0 specs, 1 specs/inner, 2 proofs."""
    found = {}
    for path in texts(root, ".antt"):
        walk = re.search(r"/proofs/(.+/)?Proof\.antt$", path)
        rank = 2 if "/proofs/" in path else 1 if "/inner/" in path else 0
        with open(path, encoding="utf-8") as f:
            for line in f:
                if line.lstrip().startswith(("--", "use ", "let ", "in ")):
                    continue
                m = DECLARED.match(line)
                if not m or walk and not m[1] and (m[5].startswith("tie") or "statement M" in m[5]):
                    continue
                if re.match(r"^[A-Za-z][\w'-]*$", m[3]):
                    found[m[3]] = min(rank, found.get(m[3], 2))
    return found


def snake(name):
    if not name[0].isupper():
        name = name.replace("getD", "get_or")
        name = re.sub(r"(?<=[a-z0-9])[A-Z]", lambda m: "_" + m[0].lower(), name)
    return name.replace("-", "_")


def spelling(root):
    found = declared(root)
    groups = {}
    for name in found:
        groups.setdefault(snake(name), []).append(name)
    turned = {}
    for new, olds in groups.items():
        # the one of specs/ first, then the one that has the spelling already
        olds.sort(key=lambda it: (found[it], it != new, "-" in it, it))
        for k, old in enumerate(olds):
            turned[old] = new + "_lem" * k
    fresh = list(turned.values())
    for new in fresh:
        if fresh.count(new) > 1:
            sys.exit(f"two names would both be {new}")
    spelled = Spelling({a: b for a, b in turned.items() if a != b})
    spelled.told = Told(spelled, found)
    spelled.crates = set(os.listdir(os.path.join(root, "crates")))
    return spelled


def words(text, turned, only=lambda it: True):
    return NAME.sub(lambda m: turned[m[0]] if m[0] in turned and only(m[0]) else m[0], text)


class Spelling(dict):
    """Old names and new ones."""


class Told(dict):
    """The same, and for a name that no text declares any more the one that port.py wrote for it."""

    def __init__(self, turned, found):
        super().__init__(turned)
        self.kept = found

    def __contains__(self, name):
        return dict.__contains__(self, name) or name not in self.kept and snake(name) != name and snake(name) in self.kept

    def __getitem__(self, name):
        return self.get(name) or snake(name)


def is_camel(name):
    return "-" not in name


def own(text, turned, crates):
    """The same without the names that this file takes from a library."""
    lent = set()
    for m in USE.finditer(text):
        if not (m[1].startswith("Rattle.") and m[1].split(".")[1] in crates):
            lent.update(it.strip().split(" as ")[0] for it in m[2].split(","))
    return {a: b for a, b in turned.items() if a not in lent}


def turn_antt(text, turned):
    here = own(text, turned, turned.crates)
    lines = []
    for line in text.split("\n"):
        code, mark, said = line.partition("--") if re.search(r"(^|\s)--(\s|$)", line) else (line, "", "")
        if mark:
            said = words(said, turned.told)
        lines.append(words(code, here) + mark + said)
    return "\n".join(lines)


def turn_rt(text, turned):
    here = own(text, turned, turned.crates)
    out, at = [], 0
    for m in CODE.finditer(text):
        out.append(words(text[at : m.start()], here))
        out.append(words(m[0], turned.told, is_camel) if m[0].startswith("//") else m[0])
        at = m.end()
    return "".join(out) + words(text[at:], here)


def turn_edit(text, turned):
    def line(it):
        return words(it, turned.told) if it.startswith(("old:", "new:")) else words(it, turned.told, is_camel)

    return "\n".join(line(it) for it in text.split("\n"))


def turn_page(text, turned):
    return re.sub(r"`[^`\n]+`", lambda m: words(m[0], turned.told), text)


def rewrite(path, turn, turned):
    with open(path, encoding="utf-8") as f:
        old = f.read()
    new = turn(old, turned)
    if new != old:
        with open(path, "w", encoding="utf-8") as f:
            f.write(new)


def main():
    root = os.getcwd()
    if not os.path.isfile(os.path.join(root, "crates.txt")):
        sys.exit("run it at the top of the repository")
    turned = spelling(root)
    if sys.argv[1:] == ["--map"]:
        for old in sorted(turned):
            print(f"{old}\t{turned[old]}")
        return
    for path in list(texts(root, ".antt")):
        rewrite(path, turn_antt, turned)
    for path in list(texts(root, ".rt")):
        rewrite(path, turn_rt, turned)
    edits = list(texts(root, ".edit")) + [os.path.join(root, "planted", it) for it in sorted(os.listdir(os.path.join(root, "planted"))) if it.endswith(".edit")]
    for path in edits:
        rewrite(path, turn_edit, turned)
    pages = [os.path.join(root, "README.md")] + [os.path.join(root, "docs", it) for it in sorted(os.listdir(os.path.join(root, "docs"))) if it.endswith(".md")]
    for path in pages:
        rewrite(path, turn_page, turned)


main()
