#!/usr/bin/env python3
"""Brings the names of this repository's own definitions and lemmas to snake case, once, behind the kit's port.py.

usage: python3 tools/respell.py [--list]      at the top of the repository

A definition, label or constructor in camelCase becomes snake_case. A lemma in kebab-case becomes snake_case too; where it
holds the name of a definition in camelCase, the dash that joins the two stays, as in `is_of-namespace`. Where a lemma and a
definition would have one name, the lemma gets `_lem`. Functions of src/, exported names, strings and inputs stay.
"""

import glob
import os
import re
import sys

# lemmas that would have the name of a definition, or of another lemma in sight of it
LEMMAS = """
namespace-bytes least-digit least-units least-name le16-bytes le32-bytes all-records sound-alone missing-bits all-formed
no-quarrel order-in struck-proper may-follow outcome-by ordered-again answers-same leaves-same refused-leaves dump-holds
dump-leaves dump-granted entry-line sizes-sum key-at dump-refused chosen-entry store-read are-bytes register-done how-long
no-dump name-of hex-digits plain-unit whole-units sum-of-sizes power-on-done restart-unsound restart-done register-exited
register-locked register-malformed register-repeated dump-exited dump-short dump-done set-unsound set-hidden set-volatile
set-done settled-unsound by-lock restart-refused stored-vol lock-trigger lock-step bad-name given-report refused-answer
by-none dump-status read-status stored-attributes rule-locks attributes-allowed by-entry by-link by-links flag-bytes
lock-bytes has-bs has-rt encode-lock name-ok name-size record-size records-with header-bytes
""".split()

# the same of lemmas that port.py had put into snake case
SNAKE = "found_in same_end same_entries entry_length too_many too_long no_room store_ok".split()

# bound variables that are renamed with them, since a later definition has the name
BOUND = ["nonVolatile"]

DEFINED = re.compile(r"^\s*(?:(?:abbrev|unfoldable|pub|axiom) )*([^\s:(){}=.]+) :(?: |$)")
WORD = r"[A-Za-z0-9_'₀-₉-]"


def capitals(m):
    """An upper-case letter begins a word; of several, the last does where a small letter follows: `hasNV` is has_nv."""
    run, behind = m.group(1), m.string[m.end() : m.end() + 1]
    if len(run) > 1 and behind.islower():
        return "_" + run[:-1].lower() + "_" + run[-1].lower()
    return "_" + run.lower()


def snake(word):
    return re.sub(r"(?<=[a-z0-9₀-₉])([A-Z]+)(?=[A-Z]|[^A-Z]|$)", capitals, word) if word[:1].islower() else word


def own_files(root):
    return sorted(glob.glob(root + "/crates/*/specs/*.antt") + glob.glob(root + "/crates/*/proofs/*.antt"))


def names(root):
    """The old name of each definition, label, constructor and lemma that changes, with the new one."""
    found = set(BOUND)
    for path in own_files(root):
        with open(path, encoding="utf-8") as f:
            for line in f:
                m = None if line.lstrip().startswith("--") else DEFINED.match(line)
                if m:
                    found.add(m.group(1))
    renamed = {}
    for name in found:
        if not re.match(r"^[a-zA-Z]", name):
            continue
        if name in LEMMAS:
            renamed[name] = name.replace("-", "_") + "_lem"
        elif name in SNAKE:
            renamed[name] = name + "_lem"
        elif "-" in name:
            parts = name.split("-")
            mixed = [bool(re.search("[a-z0-9][A-Z]", p)) for p in parts]
            text = snake(parts[0])
            for i in range(1, len(parts)):
                text += ("-" if mixed[i - 1] or mixed[i] else "_") + snake(parts[i])
            renamed[name] = text
        elif re.match("^[a-z].*[A-Z]", name):
            renamed[name] = snake(name)
    return {a: b for a, b in renamed.items() if a != b}


def turned(text, renamed, skip=(), steps=False):
    """With steps, a word behind a dot may be a step of a proof, which is named as a function of src/ is."""

    def one(m):
        word = m.group(0)
        if word not in renamed or word in skip:
            return word
        if steps and word in LEMMAS and text[m.start() - 1 : m.start()] == ".":
            return word.replace("-", "_")
        return renamed[word]

    return re.sub(WORD + "+", one, text)


def foreign(text):
    """The names that a file takes from libraries and from the modules that the check makes of src/."""
    taken = set()
    for path, listed in re.findall(r"^\s*(?:pub |ghost )*use ([^\s;{]+)\.\{([^}]*)\}", text, re.M):
        if not path.startswith("Rattle.") or path.startswith("Rattle.std") or ".declared." in path or re.search(r"\.proofs\.[a-z_0-9]+\.", path):
            taken |= {w.split(" as ")[0].strip() for w in listed.split(",")}
    return taken


def main():
    root = "."
    renamed = names(root)
    if "--list" in sys.argv:
        for a, b in sorted(renamed.items()):
            print(a, b)
        return
    for path in sorted(glob.glob(root + "/crates/*/specs/**/*.antt", recursive=True) + glob.glob(root + "/crates/*/proofs/**/*.antt", recursive=True)):
        with open(path, encoding="utf-8") as f:
            text = f.read()
        # a proof of a function has steps that are named as functions of src/ are
        in_proof = os.path.basename(os.path.dirname(path)) != "proofs" and "/proofs/" in path
        skip = foreign(text) | (set(SNAKE) - imported(text) if in_proof else set())
        new = turned(text, renamed, skip, in_proof)
        if new != text:
            with open(path, "w", encoding="utf-8") as f:
                f.write(new)
    for path in sorted(glob.glob(root + "/crates/*/src/**/*.rt", recursive=True)):
        with open(path, encoding="utf-8") as f:
            text = f.read()
        new = turned(text, renamed, foreign(text) | set(SNAKE))
        if new != text:
            with open(path, "w", encoding="utf-8") as f:
                f.write(new)


def imported(text):
    return {w.strip() for _, listed in re.findall(r"^\s*(?:pub )?use (Rattle\.[^\s;{]+)\.\{([^}]*)\}", text, re.M) for w in listed.split(",")}


if __name__ == "__main__":
    main()
