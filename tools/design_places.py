#!/usr/bin/env python3
"""Counts the places of docs/DESIGN-PASS.md in a tree: `tools/design_places.py [COMMIT] [-v]`, the tree as it stands without a commit."""
import collections
import re
import subprocess
import sys


def files(commit):
    """Each source and proof file with its text, of a commit or as it stands."""
    if commit:
        names = subprocess.run(["git", "ls-tree", "-r", "--name-only", commit, "crates"], capture_output=True, text=True, check=True).stdout
    else:
        names = subprocess.run(["git", "ls-files", "--cached", "--others", "--exclude-standard", "crates"], capture_output=True, text=True, check=True).stdout
    for name in sorted(names.split("\n")):
        if re.fullmatch(r"crates/\w+/(src/.*\.rt|proofs/.*\.antt)", name):
            if commit:
                yield name, subprocess.run(["git", "show", f"{commit}:{name}"], capture_output=True, text=True, check=True).stdout
            else:
                try:
                    with open(name) as text:
                        yield name, text.read()
                except FileNotFoundError:
                    pass


def functions(text):
    """Each function: the line it begins at, its head with its clauses, its body."""
    lines = text.split("\n")
    for at, line in enumerate(lines):
        found = re.match(r"( *)(pub(\(crate\))? )?(const )?fn ", line)
        if found:
            end = at
            while end < len(lines) - 1 and lines[end] != found.group(1) + "}":
                end += 1
            opens = next((k for k in range(at, end) if lines[k] == found.group(1) + "{" or lines[k].endswith("{")), at)
            yield at + 1, "\n".join(lines[at : opens + 1]), "\n".join(lines[opens + 1 : end])


def conjuncts(head):
    """The facts that a function asks for, with the names of what is lent left out."""
    for clause in re.findall(r"requires (?:\w+ )?\{ (.*) \}", head):
        for fact in clause.split(" × "):
            yield re.sub(r"[()]", "", fact).strip()


PROGRAMS = {"copy", "restore", "note", "chips", "report", "example"}


def places(commit):
    found = collections.defaultdict(list)
    shapes = collections.defaultdict(list)
    facts = collections.defaultdict(set)
    for name, text in files(commit):
        crate = name.split("/")[1]
        tests = crate.startswith("try_") or crate == "trial"
        if name.endswith(".antt"):
            if name.endswith("/Proof.antt"):
                found["8 proofs by hand (Proof.antt)"].append(name)
            found["8 answers that only say `search rules`"] += [name] * len(re.findall(r"= search rules$", text, re.M))
            continue

        def count(point, pattern):
            for hit in re.finditer(pattern, text, re.M):
                found[point].append(f"{name}:{text.count(chr(10), 0, hit.start()) + 1}: {hit.group(0).strip()[:80]}")

        count("1 own enums of the shape of Result", r"^(pub )?enum Answer\b")
        count("1 flags beside a value", r"^ +(pub )?(whole|found|given|in_cover): bool,")
        count("1 refusals tested by number", r"answer::number\(\w+\) [!=]= 0|\bnumber [!=]= (0|11)\b")
        count("1 answers handed through a check", r"^(pub )?fn \w+\(\s*answer: Answer")
        if crate in PROGRAMS or crate == "files":
            count("1 success told by a bool", r"^(pub(\(crate\))? )?fn (is_free|keep\w*|write_new|all_free|tell\w*|number_line|sheet_line|by_\w+)\b[^{]*-> bool")
        count("3 loops by a counted index", r"^ *while ")
        count("4 conversions and comparisons by hand", r"^(pub(\(crate\))? )?fn (wide|byte_number|lesser|least|same|off|within|digit|hex_digit|digit_of|rule_digit|put_big|word|bits_of)\b")
        count("4 printing by hand", r"\b(form|one|say|hex_byte|number_as|io::print_decimal)\(")
        count("6 arrays with a length beside them", r"^ +(pub )?\w+: \[(u8|u16|usize); \d+\],\n +(pub )?(len|from|write_count): usize")
        count("6 a slice with a place in it", r"\b(s|sheet|bytes|image|frame|lent|png|strip|room|canvas): &(mut )?\[u8\], *(at|from|n): usize")
        count("7 a switch by an enum of cases", r"\bclass: Class\b")
        for line, head, body in functions(text):
            if not tests:
                for fact in conjuncts(head):
                    facts[crate, re.sub(r"\w+(?=\.(now|old))", "_", fact)].add(f"{name}:{line}")
                shape = re.sub(r"//.*", "", body)
                shape = re.sub(r"\b(?!if\b|else\b|while\b|for\b|match\b|return\b|let\b|mut\b|as\b)[A-Za-z_]\w*\b", "x", re.sub(r"\b\d+\b|b'.'|b\".*?\"", "1", shape))
                shape = re.sub(r"\s+", " ", shape).strip()
                if shape.count(";") + shape.count("{") >= 2:
                    shapes[shape].append(f"{name}:{line}")
    texts = collections.defaultdict(list)
    for name, text in files(commit):
        if name.endswith(".rt") and text.count("\n") > 10:
            texts[text].append(name)
    for names in texts.values():
        found["2 files that stand more than once"] += names[1:]
    for twins in shapes.values():
        if len({twin.split(":")[0].split("/")[-1] + twin.split(":")[1] for twin in twins}) > 1:
            found["2 functions of the same shape"] += [" = ".join(twins)]
    for (crate, fact), users in sorted(facts.items()):
        if len(users) >= 3:
            found["5 facts asked in three functions or more"].append(f"{crate}: {fact}: {len(users)}")
    return found


def main():
    words = [word for word in sys.argv[1:] if word != "-v"]
    found = places(words[0] if words else None)
    for point in sorted(found):
        print(f"{len(found[point]):5} {point}")
        if "-v" in sys.argv:
            for place in found[point]:
                print("          " + place)


main()
