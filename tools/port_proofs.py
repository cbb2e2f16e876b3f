#!/usr/bin/env python3
"""Gives each hand-written Proof.antt the names that today's Rattle has for its goals, places and steps.

usage: port_proofs.py NAMES [CRATE ..]
NAMES/CRATE/names.json is what `rt check --generated NAMES/CRATE --old-names` writes for a crate; with no CRATE, all that are there.
The goals go by their order, which has not changed; places, loops and steps go by their old names.
"""
import difflib
import glob
import json
import os
import re
import sys

ROOT = os.path.join(os.path.dirname(os.path.realpath(__file__)), "..")
NAME = r"[^\s(){}.;,\"«»`]+"


def plain(name):
    return name.replace("-", "_")


def respell(text, old, new):
    """A word of the file, where it stands alone and behind no dot."""
    return re.sub(rf"(?<![^\s(){{}};,]){re.escape(old)}(?![^\s(){{}}.;,])", lambda m: new, text)


def cut(text):
    """The lines before the first definition, and the rest."""
    at = max([m.end() for m in re.finditer(r"(?m)^use .*\n", text)], default=0)
    return text[:at], text[at:]


def shape(goal):
    """A goal's name without what has changed in how such names are made."""
    goal = re.sub("^(overflow|nonzero)_", "", plain(goal)).replace("slice_bounds_", "part_")
    return re.sub(r"_\d+$", "", goal)


def paired(old, new):
    """Which old goal is which new one, the old ones that are gone, and the new ones that were not asked."""
    if len(old) == len(new):
        return [(i, i) for i in range(len(old))], [], []
    pairs, gone, more = [], [], []
    for kind, a, b, c, d in difflib.SequenceMatcher(None, [shape(g) for g in old], [shape(g) for g in new], autojunk=False).get_opcodes():
        if b - a == d - c:
            pairs += zip(range(a, b), range(c, d))
        else:
            gone += range(a, b)
            more += range(c, d)
    return pairs, gone, more


def without(text, own):
    """The text without an answer, also in the list that `spec` takes."""
    text = re.sub(rf"(?m)(^--.*\n)*^(abbrev |pub )*{re.escape(own)} : [^\n]*\n(.+\n)*\n?", "", text, count=1)
    return re.sub(rf"\s+{re.escape(own)}(?=[\s)])(?![^\n]*[:=])", "", text)


class Steps:
    """The steps of one function: what a path such as `c.before.lesser2.ensures` is called today, from the place that `c` is."""

    def __init__(self, said, text):
        self.places = said["places_by_name"]
        olds = [it[0] for it in said["places"]]
        self.parents = [olds.index(it[1]) if it[1] else None for it in said["places"]]
        self.asked = {need: at for (_, need), (_, at) in zip(said["needs"], said["asked_at"])}
        self.said = said
        self.helpers = set(re.findall(r"(?m)^(?:abbrev |pub )*(\S+) : .*tie\.(?!Need|invariant|decreases)[^→\n]*→ tie\.", text))

    def names(self, at):
        """By the old path of a step the new one, the longest first."""
        found = {}
        while at is not None:
            step, arm = self.said["places"][at][2], self.said["arms"][at]
            if arm:
                for new, old, below in arm[2]:
                    found.setdefault((plain(old), *below), (arm[0], new))
            if step[0]:
                found.setdefault((plain(step[0]),), (step[1],))
            at = self.parents[at]
        return found

    def turn(self, block):
        code = "\n".join(l for l in block.split("\n") if not l.startswith("--"))
        goal = re.search(r"tie\.Need-([^\s(){}.;,]+)", code)
        place = re.search(r"tie\.(?!Need|invariant|decreases|spec|close)([^\s(){}.;,]+)", code)
        name = self.asked.get(goal[1]) if goal else place[1] if place else None
        if name not in self.places:
            return block
        names = self.names(self.places.index(name))
        for at in range(len(self.places)):
            for old, new in self.names(at).items():
                names.setdefault(old, new)
        are_places = {"c"} | set(re.findall(r"\((\w+) : tie\.", code))
        for var, value in re.findall(r"let (\w+)(?: : [^=]*?)? = (.*?) in\b", code):
            head = re.match(r"\(*([^\s().]+)", value)
            path = re.fullmatch(r"([^\s().]+)((?:\.before)*)", value)
            if path and path[1] in are_places or value.endswith(".before") and " " not in value or head and head[1] in self.helpers and not re.search(r"\)\.(?!before)", value) and not re.search(r"\.(args|requires|ensures)$", value):
                are_places.add(var)

        def is_place(head, before):
            if head != ")":
                return head in are_places
            depth, at = 0, len(before)
            while at:
                at -= 1
                depth += {")": 1, "(": -1}.get(before[at], 0)
                if not depth:
                    break
            inner = re.match(r"\(+([^\s().]+)", before[at:])
            return bool(inner) and inner[1] in self.helpers | are_places

        def path(found):
            head, parts = found[1], found[2][1:].split(".")
            if not is_place(head, block[: found.end(1)]):
                return found[0]
            lead = 0
            while lead < len(parts) and parts[lead] == "before":
                lead += 1
            rest = parts[lead:]
            for n in range(len(rest), 0, -1):
                key = (plain(rest[0]), *rest[1:n])
                if key in names:
                    rest = [*names[key], *rest[n:]]
                    break
            return head + "." + ".".join(parts[:lead] + rest)

        return re.sub(r"(?:(?<![^\s(,{;]))([\w'κμ₀-]+)((?:\.[^\s(){}.;,]+)+)", path, re.sub(r"(\))((?:\.[^\s(){}.;,]+)+)", path, block))


def turn(path, function, said):
    with open(path, encoding="utf-8") as f:
        text = before = f.read()
    head, text = cut(text)
    goals = re.findall(r"(?m)^(?:abbrev |pub )*(%s)(?: [^\n:]*)? : tie\.Need-(%s)" % (NAME, NAME), text)
    needs = [new for _, new in said["needs"]]
    pairs, gone, more = paired([g for _, g in goals], [old for old, _ in said["needs"]])
    if more:
        print(f"{path}: no answer for {[needs[k] for k in more]}: by hand")
    pairs = [(*goals[i], needs[k]) for i, k in pairs]
    for i in gone:
        text = without(text, goals[i][0])
    for own, goal, new in pairs:
        if new:
            text = re.sub(rf"(?m)^((?:abbrev |pub )*{re.escape(own)}(?: [^\n:]*)? : tie\.)Need-{re.escape(goal)}(?![^\s(){{}}.;,])", lambda m: m[1] + "NEED-" + new, text)
    text = text.replace("tie.NEED-", "tie.Need-")
    # places and loops
    places = {plain(it[0]): new for it, new in zip(said["places"], said["places_by_name"])}
    loops = {plain(f"{kind}-{old}"): f"{kind}-{new}" for (old, new), _ in said["loops"] for kind in ("invariant", "decreases")}

    def place(found):
        name = found[1]
        return "tie." + (places.get(plain(name)) or loops.get(plain(name)) or name)

    text = re.sub(rf"tie\.({NAME})", lambda m: m[0] if m[1].startswith("Need-") else place(m), text)
    text = "\n\n".join(Steps(said, text).turn(block) for block in text.split("\n\n"))
    text = re.sub(r"\.pre(?![\w-])", ".requires", text)
    # the answers' own names
    words = set(re.findall(NAME, text))
    for own, _, new in pairs:
        if new and own != new and new not in words:
            text = respell(text, own, new)
    last = function.split(".")[-1]
    for dashed in {last.replace("_", "-"), last}:
        text = respell(text, f"{dashed}-spec", f"{last}_spec")
    text = head + text
    if text != before:
        with open(path, "w", encoding="utf-8") as f:
            f.write(text)


def main():
    names, only = sys.argv[1], sys.argv[2:]
    for path in sorted(glob.glob(os.path.join(ROOT, "crates", "*", "proofs", "**", "Proof.antt"), recursive=True)):
        parts = os.path.relpath(path, ROOT).split(os.sep)
        crate, function = parts[1], ".".join(parts[3:-1])
        if only and crate not in only or not os.path.exists(f"{names}/{crate}/names.json"):
            continue
        with open(f"{names}/{crate}/names.json") as f:
            said = json.load(f)
        key = f"Rattle-{crate}-proofs.{function}.Lts"
        if key not in said:
            print(f"{path}: no names for {function}: by hand")
        elif "Tie as tie" in open(path, encoding="utf-8").read():
            turn(path, function, said[key])


main()
