#!/usr/bin/env python3
"""Respells this repository's own definitions and lemmas as today's Rattle spells names.

usage: python3 tools/respell.py        at the top of a repository that port.py has turned; prints what it changed

Definitions, constructors and fields in camel case become snake case, in the parts of a lemma's name too. Facts (definitions whose value
is a type) get a capital. A lemma that would then have a definition's name ends in _lem. Names of functions, modules and types of src/
have no such form, so they keep theirs. A second run changes nothing.
"""

import glob
import os
import re

CAMEL = re.compile(r"^[a-z][A-Za-z0-9]*[A-Z]")
TOKEN = re.compile(r"--[^\n]*|\"(?:[^\"\\]|\\.)*\"|[^\s(){}.;,@\"«»\[\]\\:λ]+")
# Lemmas that would fall together with a definition.
LEMMAS = "each_at first_some free_on is_free name_in node_end or_bool owner_of row_put".split()
# Facts, by the crates in which the word stands for nothing else.
FACTS = {
    ("run_rules", "runs"): {
        "present": "Present",
        "presents": "Presents",
        "onEveryCycle": "OnEveryCycle",
        "portsPresent": "PortsPresent",
        "guardsT": "GuardsT",
        "guardsS": "GuardsS",
        "guardsR": "GuardsR",
        "conditionsAre": "ConditionsAre",
        "sidesE": "SidesE",
        "sidesS": "SidesS",
        "sidesR": "SidesR",
        "sameClock": "SameClock",
        "fits": "FitsClock",
        "all_fit": "AllFitClock",
        "agrees": "Agrees",
        "satisfies": "Satisfies",
        "statedInStates": "StatedInStates",
        "statedInRegions": "StatedInRegions",
    },
    ("activations",): {"ofCall": "OfCall"},
}


def snake(word):
    return re.sub(r"(?<=[a-z0-9])([A-Z])", lambda m: "_" + m.group(1).lower(), word)


def read(path):
    with open(path, encoding="utf-8", newline="") as f:
        return f.read()


def part(word):
    return snake(word) if CAMEL.match(word) else word


def words_of(files):
    """The words of proof files: those in camel case, and the parts of all others."""
    camel, parts = set(), set()
    for path in files:
        for m in TOKEN.finditer(read(path)):
            if not m.group().startswith(("--", '"')):
                for p in m.group().split("-"):
                    (camel if CAMEL.match(p) else parts).add(p)
    return camel, parts


def bare(text, old, new):
    """Replaces a word outside comments, where it is no part of a path and no name of a clause or field."""
    it = re.compile(r"(--[^\n]*|(?:ensures|requires) " + re.escape(old) + r"\b)|(?<![\w'.-])" + re.escape(old) + r"(?![\w'.-])(?! = )")
    return it.sub(lambda m: m.group(1) or new, text)


def main():
    antt = [p for p in glob.glob("crates/*/**/*.antt", recursive=True) if "/out/" not in p]
    source = [p for p in glob.glob("crates/*/**/*.rt", recursive=True) if "/out/" not in p]
    edits = glob.glob("crates/*/must-fail/*.edit")
    pages = glob.glob("docs/*.md") + ["README.md"] + glob.glob("harness/*.md") + glob.glob("harness/**/*.rs", recursive=True)
    # The page of the port has old names beside new ones.
    pages = [p for p in pages if "/target/" not in p and "/reference/" not in p and p != "docs/PORT.md"]
    words, parts = words_of(antt)
    # In src/, names under which a definition is brought in.
    for path in source:
        words.update(re.findall(r"(?<=\bas )[a-z]\w*[A-Z]\w*", read(path)))
    to_come = {snake(w) for w in words}
    camel = re.compile(r"(?<![\w'])[a-z][A-Za-z0-9]*[A-Z][A-Za-z0-9]*(?![A-Za-z0-9_])")
    changed = 0
    for path in antt + source + edits + pages:
        old = text = read(path)
        crate = path.split("/")[1] if path.startswith("crates/") else ""
        proof = path.endswith(".antt")
        if proof:
            for word in LEMMAS:
                if word in to_come:
                    text = bare(text, word, word + "_lem")
        if proof or path.endswith((".rt", ".edit")):
            for crates, facts in FACTS.items():
                if crate in crates:
                    for word, fact in facts.items():
                        text = bare(text, word, fact)
        # Edits and pages still have words that port.py has turned in the proofs.
        text = camel.sub(lambda m: part(m.group()) if m.group() in words or snake(m.group()) in parts else m.group(), text)
        if text != old:
            with open(path, "w", encoding="utf-8", newline="") as f:
                f.write(text)
            changed += 1
    print(f"respell: {len(words)} words, {changed} files changed")


if __name__ == "__main__":
    main()
