#!/usr/bin/env python3
"""Brings the repository's own names to the spelling of today's Rattle, once, after the kit's script has turned the rest: definitions, lemmas and
fields of specs/ and proofs/ in snake case; a lemma's module that has the name of a type of its crate gets another; a lemma that would have its
function's name ends in _lem; the proof of a function f is f_spec; types of plain numbers are copied, as they were; each crate asks for the tactics.

usage: python3 tools/port_names.py      at the top of the repository
"""
import os
import re

CRATES = "crates"
# A token of antt; a dash joins the parts of a name.
TOKEN = re.compile(r"[A-Za-zℕℤ_][\wℕℤ'₀-₉⁺⁻]*(?:-[\wℕℤ'₀-₉⁺⁻]+)*")
CAMEL = re.compile(r"(?<![\w'])[a-z][a-z0-9]*[A-Z][A-Za-z0-9]*(?![\w'])")
IMPORT = re.compile(r"use ([\w.]+)\.\{([^}]*)\}")
# Modules of lemmas that have the name of a type that their crate exports.
MODULES = {"strip": {"Read": "EntryRead", "Step": "EntryStep"}, "meaning": {"Interpreted": "Interpreting"}}
# Lemmas that would have the name of the function that they are about.
LEMMAS = {"strip": ["least_by", "step_by"], "translation": ["cell_in"], "meaning": ["from_bits", "sign_extended"]}


def files(*endings):
    for folder, dirs, names in os.walk(CRATES):
        dirs[:] = sorted(d for d in dirs if d != "out")
        for name in sorted(names):
            if name.endswith(endings):
                yield os.path.join(folder, name)


def read(path):
    with open(path, encoding="utf-8") as f:
        return f.read()


def write(path, text):
    if read(path) != text:
        with open(path, "w", encoding="utf-8") as f:
            f.write(text)


def snake(name):
    def part(p):
        if not p or not p[0].islower():
            return p
        p = re.sub(r"([a-z0-9])([A-Z])", lambda m: m.group(1) + "_" + m.group(2).lower(), p)
        return re.sub(r"[A-Z]", lambda m: m.group(0).lower(), p)

    return "-".join(part(p) for p in name.split("-"))


def own_names():
    """The names in camel case that no library of the kit has brought."""
    names, brought = set(), set()
    crates = set(os.listdir(CRATES))
    for path in files(".antt"):
        text = read(path)
        names |= set(CAMEL.findall(text))
        for m in IMPORT.finditer(text):
            parts = m.group(1).split(".")
            if parts[0] != "Rattle" or parts[1] not in crates:
                brought |= set(CAMEL.findall(m.group(2)))
    return names - brought


def crate(path):
    return path.split(os.sep)[1]


def modules():
    for c, moved in MODULES.items():
        for old, new in moved.items():
            os.rename(f"{CRATES}/{c}/proofs/{old}.antt", f"{CRATES}/{c}/proofs/{new}.antt")
            lib = f"{CRATES}/{c}/proofs/Lib.antt"
            write(lib, re.sub(rf"(?m)mod {old}$", f"mod {new}", read(lib)))
            for path in files(".antt", ".rt", ".edit"):
                write(path, re.sub(rf"\bRattle\.{c}\.proofs\.{old}\b", f"Rattle.{c}.proofs.{new}", read(path)))


def main():
    modules()
    turned = {n: snake(n) for n in own_names()}
    there = set()
    for path in files(".antt"):
        there |= set(re.findall(r"(?m)^\s*(?:(?:pub|abbrev|unfoldable) )*([a-z][\w-]*) : ", read(path)))
    clash = {new for new in turned.values() if new in there}
    held = {c: set(lemmas) for c, lemmas in LEMMAS.items()}

    def turn(path):
        mine = held.get(crate(path), set()) if path.endswith(".antt") else set()

        def one(m):
            t = m.group(0)
            if t in mine:
                return t + "_lem"
            return "-".join(turned.get(p, p) for p in t.split("-"))

        return TOKEN.sub(one, read(path))

    for path in files(".antt", ".rt", ".edit"):
        write(path, turn(path))
    for path in files("Proof.antt"):
        f = os.path.basename(os.path.dirname(path))
        text = read(path)
        for old in {f.replace("_", "-") + "-spec", f + "-spec"}:
            text = re.sub(rf"(?<![\w'-]){re.escape(old)}(?![\w'-])", f + "_spec", text)
        write(path, text)
    for path in files(".rt"):
        write(path, read(path).replace("#[derive(Drop)]", "#[derive(Clone, Copy)]"))
    for path in files("lib.rt", "main.rt"):
        text = read(path)
        if "#![tactic" not in text:
            lines = text.split("\n")
            n = 0
            while lines[n].startswith("//"):
                n += 1
            write(path, "\n".join(lines[:n] + ["#![tactic(auto)]", ""] + lines[n:]))
    print(f"{len(turned)} names turned; names that a lemma has already: {sorted(clash)}")


main()
