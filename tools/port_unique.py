#!/usr/bin/env python3
"""Gives each proofs/Unique.antt the modules in which today's Rattle keeps a function's contract and its name."""
import glob
import os
import re

ROOT = os.path.join(os.path.dirname(os.path.realpath(__file__)), "..")


def turn(text):
    for dashed in set(re.findall(r"(?m)^use Rattle[\w.]+ as (\S+-\S+)$", text)):
        text = re.sub(rf"(?<![\w-]){dashed}(?=[.\n])", dashed.replace("-", "_"), text)
    text = re.sub(r"(?m)^use (Rattle\.\w+)\.proofs\.([\w.]+) as (\w+)\n", lambda m: f"use {m[1]}.proofs.{m[2]} as {m[3]}\nuse {m[1]}.specs.contracts.{m[2]} as {m[3]}_contract\n" if re.search(rf"\b{m[3]}\.(ended|clauses)\b", text) else m[0], text)
    text = re.sub(r"\b(\w+)\.Key\.name\b", r"\1.Symbol.symbol", text)
    text = re.sub(r"\bλ M\. (\w+)\.clauses\b", r"λ M 𝓤 𝓛. \1_contract.clauses 𝓛", text)
    return re.sub(r"\b(\w+?)(?<!_contract)\.ended\b", r"\1_contract.ended", text)


for path in glob.glob(os.path.join(ROOT, "crates/*/proofs/Unique.antt")):
    with open(path, encoding="utf-8") as f:
        before = f.read()
    if "_contract.clauses" not in before:
        with open(path, "w", encoding="utf-8") as f:
            f.write(turn(before))
