#!/usr/bin/env python3
"""Counts, in src/ of every crate, the places that docs/DESIGN-PASS.md speaks of.

    python3 tools/design_places.py [FOLDER]     the checkout in FOLDER, or this one

A place is a line or a declaration that a pattern finds; which of them are to change is judged in the page.
"""
import collections
import glob
import re
import sys

ROOT = sys.argv[1] if len(sys.argv) > 1 else "."
KEEP = set("fn pub let mut if else while loop for in return match true false as".split())


def sources():
    for path in sorted(glob.glob(ROOT + "/crates/*/src/**/*.rt", recursive=True)):
        text = open(path, encoding="utf-8").read()
        yield path[len(ROOT) + 1 :].split("/")[1], re.sub(r"//[^\n]*", "", text)


def lines(pattern):
    return [
        f"{crate}: {line.strip()}"
        for crate, text in sources()
        for line in text.splitlines()
        if re.search(pattern, line)
    ]


def functions():
    """Name, parameters, head and body of each function and method."""
    for crate, text in sources():
        for m in re.finditer(r'^( *)(?:pub )?(?:extern "C" )?fn (\w+)', text, re.M):
            brace = "\n" + m.group(1) + "{\n"
            begin = text.find(brace, m.start())
            if begin < 0:
                continue
            head = text[m.start() : begin]
            parameters = head[: head.find(")\n") if ")\n" in head else head.find(") ->")]
            end = text.find("\n" + m.group(1) + "}\n", begin)
            yield crate, m.group(2), re.findall(r"(\w+): ", parameters), head, text[begin:end]


def twins():
    """Functions whose bodies are one once names and numbers are taken out."""
    groups = collections.defaultdict(list)
    for crate, name, _, _, body in functions():
        tokens = re.findall(r"[A-Za-z_]\w*|\d\w*|[^\s\w]", body)
        shape = " ".join(t if t in KEEP or not re.match(r"\w", t) else "i" for t in tokens)
        if len(tokens) >= 8:
            groups[shape.replace("i : : i", "i")].append(f"{crate}::{name}")
    return [", ".join(group) for group in groups.values() if len(group) > 1]


FACTS = [
    r"well_formed \S+\.(now|old) ≡ true", r"well_formed \(part", r"EntryEnds ", r"count ≡ length \(entries_of",
    r"sound \S+ \S+ ≡ true", r"ends ≡ ends_of", r"end ≡ end_of", r"found ≡ place_of", r"Held ", r"Within nv",
    r"HeaderFits", r"TailOf ", r"length r\.(now|old) ≡ reader_bytes", r"Located known", r"Searched", r"Prepared",
    r"Noted ", r"length ends.old ≡ max_entries", r"dump_valid \S+ ≡ true", r"named \(variable",
    r"length p\.now ≡ length [vq]\.now", r"i \+ 16 ≤ length", r"store_ok nonvolatile",
]
GROUPS = [
    ("namespace", "name"), ("attributes", "payload"), ("policy", "ends"), ("policy", "entry_ends"), ("nv", "vol", "ends"),
    ("nv", "vol", "known"), ("s", "nonvolatile", "end"), ("masks", "shown"), ("next", "first"), ("in_nv", "in_vol"),
    ("place", "rank"), ("line", "n"), ("tail", "namespace"),
]

ROWS = [
    ("1, own enums", lambda: lines(r"^(pub )?enum ")),
    ("1, a status, a flag or a kind with values beside it", lambda: lines(
        r"^    pub (status|granted|nonvolatile|non_volatile|found|kind|settled): ")),
    ("1, a number that stands for none", lambda: lines(
        r"^    if .* \{ \w+ \} else \{ 0 \}$|^        return 0;$|^    0$|return limits::NO_RANK|= limits::NO_RANK|return GROUPS|\[(NONE|END);|STOPPED\)")),
    ("2, twins: groups of functions of one shape", twins),
    ("3, loops by hand", lambda: lines(r"^\s*('[a-z]+: )?(while|loop)\b")),
    ("4, functions that compare, convert, copy or print by hand", lambda: [
        f"{crate}::{name}" for crate, name, _, _, _ in functions()
        if re.search(r"^(same_|few_equal|eight$|number|is_success|ground_number|byte_of|switches_of|bytes_of|le16|le32|get\d|put16|wide|unit$|word|put_|locked_bytes|disabled_bytes|exited_bytes|header$|is_found)", name)]),
    ("5, facts in the requires of three functions or more", lambda: [
        f"{n} {fact}" for fact in FACTS
        if (n := sum(bool(re.search(fact, head.split("ensures")[0])) for *_, head, _ in functions())) >= 3]),
    ("5, parameters that travel together in three functions or more", lambda: [
        f"{n} {', '.join(group)}" for group in GROUPS
        if (n := sum(set(group) <= set(parameters) for _, _, parameters, _, _ in functions())) >= 3]),
    ("6, a number that tells how much of a buffer counts", lambda: [
        f"{crate}::{name}({', '.join(parameters)})" for crate, name, parameters, _, _ in functions()
        if {"policy", "used"} <= set(parameters) or {"s", "end"} <= set(parameters) or {"line", "n"} <= set(parameters)
        or {"masks", "shown"} <= set(parameters)]),
    ("7, a bool that chooses what is done", lambda: [
        f"{crate}::{name}" for crate, name, parameters, _, _ in functions()
        if {"signs", "nonvolatile", "other", "exited"} & set(parameters)]),
]

for title, row in ROWS:
    found = row()
    print(f"{len(found):4} {title}")
    for place in found:
        print(f"       {place}")
files = glob.glob(ROOT + "/crates/*/proofs/**/Answers.antt", recursive=True)
print(f"{len(files):4} 8, files of answers, {sum(len(open(f, encoding='utf-8').readlines()) for f in files)} lines")
