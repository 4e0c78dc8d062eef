#!/usr/bin/env python3
"""Moves the files of laws from specs/ to proofs/, once: a must-fail edit of a definition is refused for what it means only
where no theorem of specs/ rests on the definition.

usage: python3 tools/laws.py [--list]      at the top of the repository

Moved are the files that are named for laws and those of the same crate's specs/ that import them. Statements and proofs stay.
"""

import glob
import os
import re
import subprocess
import sys

# files of theorems that import no file of laws, or that hold definitions which edits touch (those are split by hand)
MORE = {"demand3": ["StoredSizes", "HowLong"], "demand3_example": ["Example"], "readings": ["Readings"], "history": ["AtEach"]}


def modules(crate):
    return {os.path.basename(p)[:-5]: open(p, encoding="utf-8").read() for p in glob.glob(f"crates/{crate}/specs/*.antt") if not p.endswith("/Lib.antt")}


def moved(crate):
    texts = modules(crate)
    names = {n for n in texts if n.endswith("Laws")} | {n for n in MORE.get(crate, []) if n in texts}
    while True:
        more = {n for n, t in texts.items() if n not in names and any(re.search(rf"\bRattle\.{crate}\.specs\.{m}\b", t) for m in names)}
        if not more:
            return sorted(names)
        names |= more


def main():
    crates = sorted(c for c in os.listdir("crates") if os.path.isdir(f"crates/{c}/specs"))
    plan = {c: moved(c) for c in crates}
    plan = {c: names for c, names in plan.items() if names}
    for c, names in plan.items():
        print(c, *names)
    if "--list" in sys.argv:
        return
    for c, names in plan.items():
        os.makedirs(f"crates/{c}/proofs", exist_ok=True)
        for n in names:
            subprocess.run(["git", "mv", f"crates/{c}/specs/{n}.antt", f"crates/{c}/proofs/{n}.antt"], check=True)
        lib = f"crates/{c}/specs/Lib.antt"
        lines = open(lib, encoding="utf-8").read().splitlines()
        gone = [l for l in lines if re.match(r"pub mod (\w+)$", l) and l.split()[-1] in names]
        kept = [l for l in lines if l not in gone]
        if any(l.strip() for l in kept):
            open(lib, "w", encoding="utf-8").write("\n".join(kept) + "\n")
        else:
            os.remove(lib)
        target = f"crates/{c}/proofs/Lib.antt"
        have = open(target, encoding="utf-8").read().splitlines() if os.path.exists(target) else []
        open(target, "w", encoding="utf-8").write("\n".join(have + gone) + "\n")
    for path in glob.glob("crates/*/**/*.antt", recursive=True) + glob.glob("crates/*/src/**/*.rt", recursive=True):
        if "/out/" in path:
            continue
        text = open(path, encoding="utf-8").read()
        new = re.sub(r"\bRattle\.(\w+)\.specs\.(\w+)\b", lambda m: f"Rattle.{m.group(1)}.proofs.{m.group(2)}" if m.group(2) in plan.get(m.group(1), []) else m.group(0), text)
        if new != text:
            open(path, "w", encoding="utf-8").write(new)


if __name__ == "__main__":
    main()
