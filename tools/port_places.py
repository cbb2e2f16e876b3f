#!/usr/bin/env python3
"""Brings the hand-written proofs to today's places: after port_proofs.py, by the same NAMES.

usage: port_places.py NAMES [CRATE ..]
A step is named from any later place, so the `.before`s in front of it go; where a place itself is passed on, they are counted anew.
A test of `!x` tells `x ≡ true` or `x ≡ false` by itself. A loop's invariant takes the variables that are live there today.
"""
import glob
import json
import os
import re
import sys

ROOT = os.path.join(os.path.dirname(os.path.realpath(__file__)), "..")
WORD = r"[^\s(){}.;,]+"
PLACE = re.compile(rf"tie\.(?!Need|invariant|decreases|spec|close)({WORD})")


class Places:
    def __init__(self, said, text):
        self.names = said["places_by_name"]
        olds = [it[0] for it in said["places"]]
        self.parents = [olds.index(it[1]) if it[1] else None for it in said["places"]]
        self.asked = {need: at for (_, need), (_, at) in zip(said["needs"], said["asked_at"])}
        # helpers: the places of their parameters, and of their result
        self.helpers = {}
        for found in re.finditer(r"(?m)^(?:abbrev |pub )*(\S+) : (.*(?:\n +→.*)*)$", text):
            if found[1] in ("invariant-loop", "decreases-loop") or "tie.Need" in found[2]:
                continue
            parts = re.split(r"→", found[2])
            takes = []
            for part in parts[:-1]:
                inner = PLACE.findall(part)
                binders = re.findall(r"\(([^():]+) : tie\.", part)
                takes += inner * (len(binders[0].split()) if len(binders) == 1 and len(inner) == 1 else 1)
            gives = PLACE.match(parts[-1].strip())
            if takes:
                self.helpers[found[1]] = (takes, gives[1] if gives else None)

    def steps(self, start, end):
        """How many `.before`s lead from a place to an earlier one."""
        if start not in self.names or end not in self.names:
            return None
        at, count = self.names.index(start), 0
        while at is not None and self.names[at] != end:
            at, count = self.parents[at], count + 1
        return None if at is None else count

    def block(self, block, path):
        lines = block.split("\n")
        code = "\n".join(l for l in lines if not l.startswith("--")).lstrip("\n")
        goal = re.search(r"tie\.Need-([^\s(){}.;,]+)", code)
        first = re.match(r"(?:abbrev |pub )*(\S+) :", code)
        if goal:
            own = self.asked.get(goal[1])
            params = {"c": own}
        elif first and first[1] in self.helpers:
            takes, gives = self.helpers[first[1]]
            clause = re.search(rf"(?m)^{re.escape(first[1])} ([^=:\n]*?) =", code)
            names = clause[1].split() if clause else ["c"]
            params = dict(zip(names, takes))
            if len(names) < len(takes):
                params = {names[0]: takes[0]} if names else {}
        else:
            return block
        # the body, where places are read
        head = re.search(r"(?m)^[^\n]*? =(?=\s)", code) if not goal else re.search(r"(?m)^\S+ c[^=\n]*? =(?=\s)", code)
        # lets that only rename a place
        alias = {}

        def root(var):
            while var in alias:
                var = alias[var]
            return var

        def is_place(var):
            return root(var) in params

        def chain(expression):
            found = re.fullmatch(rf"\(?({WORD})((?:\.before)*)\)?", expression.strip())
            return found[1] if found and is_place(found[1]) else None

        def let(found):
            var, value = found[1], found[2]
            source = chain(value)
            if source:
                alias[var] = source
                return f"let {var} = {root(source)} in"
            return found[0]

        remarks = "".join(l + "\n" for l in lines if l.startswith("--"))
        text = code
        text = re.sub(r"let (\w+) = ([^\n]*?) in(?=\s)", let, text)

        def typed(found):
            source = chain(found[3])
            count = self.steps(params[root(source)], found[2]) if source else None
            return found[0] if count is None else f"let {found[1]} : tie.{found[2]} = {root(source)}{'.before' * count} in"

        text = re.sub(rf"let (\w+) : tie\.({WORD}) = ([^\n]*?) in(?=\s)", typed, text)
        # a place passed on to a helper

        def argument(expression, wanted):
            source = chain(expression)
            if not source:
                return None
            count = self.steps(params[root(source)], wanted)
            if count is None:
                return None
            return root(source) + ".before" * count

        for name, (takes, _) in self.helpers.items():
            def call(found):
                rest, out, at = found[2], "", 0
                for wanted in takes:
                    it = re.match(rf"\s+(\({WORD}(?:\.before)*\)|{WORD}(?:\.before)*)(?![^\s(){{}};,])", rest[at:])
                    if not it:
                        break
                    new = argument(it[1], wanted)
                    out += " " + (new or it[1])
                    at += it.end()
                return found[1] + out + rest[at:]

            text = re.sub(rf"((?<![^\s(){{}};,]){re.escape(name)})((?:[ \n]+\(?[^\s(){{}};,]+\)?){{{len(takes)}}})", lambda m: call(m) if not text[m.start():].startswith(name + " :") else m[0], text)
        # a helper that gives a place
        if first and not goal and self.helpers[first[1]][1]:
            gives = self.helpers[first[1]][1]
            found = re.search(rf"(?m)^({re.escape(first[1])} (\w+) = )(\(*(?:\S+ )*\2(?:\.before)*\)*(?:\.before)+)$", text)
            if found and found[2] in params:
                count = self.steps(params.get(found[2]), gives)
                if count is not None:
                    text = text[: found.start()] + found[1] + found[2] + ".before" * count + text[found.end():]
        # steps need no `.before`
        def field(found):
            return found[1] + "." if is_place(found[1]) else found[0]

        text = re.sub(rf"(?<![^\s(,{{;])({WORD})(?:\.before)+\.(?!before)", field, text)
        text = re.sub(r"\)(?:\.before)+\.(?!before)", lambda m: ").", text)
        # tests of a negation
        text = re.sub(rf"not-(?:true|false) _ ({WORD}(?:\.{WORD})*\.if-not-{WORD}\.(?:true|false))", r"\1", text)
        return ("\n" if block.startswith("\n") else "") + remarks + text


def loops(said, text, path):
    for ((_, loop), names), changed in zip(said["loops"], said["changed"]):
        wanted = [n + "₀" if c else n for n, c in zip(names, changed)] + [n for n, c in zip(names, changed) if c]
        for kind in ("invariant", "decreases"):
            found = re.search(rf"(?m)^(?:abbrev |pub )*(\S+) : tie\.{kind}-{re.escape(loop)}\n(?:unfolding[^\n]*\n)?\1((?: \S+)*) =", text)
            if not found:
                continue
            given = found[2].split()
            if len(given) != len(wanted):
                lost = [g for g in given if g not in wanted and re.search(rf"(?<![^\s(){{}};,]){re.escape(g)}(?![^\s(){{}};,.])", text[found.end(): text.find("\n\n", found.end())])]
                print(f"{path}: {kind}-{loop}: {given} -> {wanted}" + (f"; by hand: {lost}" if lost else ""))
                text = text[: found.start(2)] + "".join(" " + w for w in wanted) + text[found.end(2):]
    return text


def main():
    names, only = sys.argv[1], sys.argv[2:]
    for path in sorted(glob.glob(os.path.join(ROOT, "crates", "*", "proofs", "**", "Proof.antt"), recursive=True)):
        parts = os.path.relpath(path, ROOT).split(os.sep)
        crate, function = parts[1], ".".join(parts[3:-1])
        if only and crate not in only or not os.path.exists(f"{names}/{crate}/names.json"):
            continue
        with open(f"{names}/{crate}/names.json") as f:
            said = json.load(f).get(f"Rattle-{crate}-proofs.{function}.Lts")
        with open(path, encoding="utf-8") as f:
            text = f.read()
        if not said or "Tie as tie" not in text:
            continue
        at = max([m.end() for m in re.finditer(r"(?m)^use .*\n", text)], default=0)
        head, body = text[:at], text[at:]
        body = loops(said, body, path)
        places = Places(said, body)
        body = "\n\n".join(places.block(b, path) for b in body.split("\n\n"))
        if head + body != text:
            with open(path, "w", encoding="utf-8") as f:
                f.write(head + body)


main()
