#!/usr/bin/env python3
"""Spells the repository's own definitions and lemmas as today's Rattle does: words in snake case, also where dashes or capitals joined them.

usage: port_names.py links   before port.py: each link below crates/ becomes a copy of what it names
       port_names.py         after port.py: in specs/, proofs/, src/ and must-fail/ of every crate

A name is respelled where a file of specs/ or proofs/ declares it at its head, as an abbrev, a lemma or a field of a record, and it begins with a small letter.
A lemma that would have a definition's name gets `_lem`. Names of the code, of strings and of what Rattle makes of a function stay.
"""
import os
import re
import shutil
import sys

ROOT = os.path.join(os.path.dirname(os.path.realpath(__file__)), "..")
NAME = r"[^\s(){}.;,@\"«»`]+"
DECLARED = re.compile(r"(?m)^ *(?:(?:abbrev|unfoldable|pub) )*(%s)((?: \([^\n]*?\)| \{[^\n]*?\})*) : " % NAME)
NOT_NAMES = {"--", "use", "open", "module", "let", "record", "data"}


def texts(top, endings):
    for folder, folders, files in os.walk(top):
        folders[:] = sorted(f for f in folders if f != "out")
        for name in sorted(files):
            if name.endswith(endings):
                yield os.path.join(folder, name)


def copy_links(top):
    for folder, folders, files in os.walk(top):
        for name in folders + files:
            path = os.path.join(folder, name)
            if os.path.islink(path):
                named = os.path.realpath(path)
                os.remove(path)
                shutil.copy(named, path)


def read(path):
    with open(path, encoding="utf-8") as f:
        return f.read()


def snake(name):
    return re.sub(r"(?<=[a-z0-9])[A-Z]", lambda m: "_" + m[0].lower(), name).replace("-", "_")


def of_a_function(path):
    """A file of proofs/F/, for the function F."""
    parts = path.split(os.sep)
    at = parts.index("crates")
    return len(parts) - at > 4 and parts[at + 2] == "proofs"


def declared(path):
    """The names that a file declares, without those that begin with a capital."""
    text = "\n".join(l for l in read(path).split("\n") if not l.lstrip().startswith(("--", "use ", "pub use ")))
    for found in DECLARED.finditer(text):
        name = found[1]
        if name not in NOT_NAMES and re.match(r"[a-z]", name):
            yield name


def turned(top):
    """Each name that changes, with its new spelling. What specs/ defines comes first, then what capitals join, then the rest."""
    ranks, stays = {}, set()
    for path in texts(top, ".antt"):
        for name in declared(path):
            if of_a_function(path) and "-" in name:
                continue  # what answers a goal of Rattle's keeps its dashes
            rank = 0 if f"{os.sep}specs{os.sep}" in path else 1 if re.search("[a-z0-9][A-Z]", name) else 2
            if snake(name) == name:
                stays.add((rank, name))
            else:
                ranks[name] = min(rank, ranks.get(name, 9))
    taken = {name for rank, name in stays if rank == 0}
    to = {}
    for name in sorted(ranks, key=lambda n: (ranks[n], n)):
        new = snake(name)
        if new in taken or ranks[name] == 2 and any(new == n for _, n in stays):
            new += "_lem"
        if new in taken:
            sys.exit(f"{name} and another would both be {new}")
        taken.add(new)
        to[name] = new
    for rank, name in sorted(stays):
        if rank and name in to.values():
            to[name] = name + "_lem"
    return to


def respelled(to, text, rule):
    """A text with its names respelled; a name that had no dash and no capital, only where no dot stands beside it: there a function may have it."""

    def new(found):
        name = found[0]
        beside = text[max(found.start() - 1, 0)] + text[found.end():found.end() + 1]
        return name if snake(name) == name and "." in beside else to.get(name, name)

    return rule.sub(new, text)


def turn(top):
    to = turned(top)
    token = re.compile(NAME)
    word = re.compile(r"(?<![\w-])[a-z]\w*[A-Z]\w*(?![\w-])")
    for path in texts(top, (".antt", ".edit", ".rt")):
        before = read(path)
        rule = word if path.endswith(".rt") else token
        after = respelled(to, before, rule)
        if after != before:
            with open(path, "w", encoding="utf-8") as f:
                f.write(after)
    for name in sorted(to):
        print(name, to[name])


def main():
    top = os.path.join(ROOT, "crates")
    if sys.argv[1:] == ["links"]:
        copy_links(top)
    elif not sys.argv[1:]:
        turn(top)
    else:
        sys.exit(__doc__)


main()
