#!/usr/bin/env python3
"""Respells this repository's own names as today's Rattle spells names: definitions, lemmas, fields and constructors in snake case.

usage: python3 tools/respell.py          at the top of the repository, once, right after the kit's port.py
       python3 tools/respell.py --list   prints each old name with its new one, and changes nothing

A name is the repository's own where a file of specs/ or proofs/ declares it. Names that come from the Rust side (functions, fields, variants), from the kit and
from what the check generates stay. Where two names would fall together, APART says what each becomes. Code spans of the documents, and the must-fail edits, follow.
"""

import glob
import os
import re
import sys

# Names that would fall together in one place: a definition and a lemma about it, which differed by a dash or a capital alone. The last two have a capital that
# begins no word.
APART = {
    "options-length": "option_bytes_length",
    "flash-length": "fresh_flash_length",
    "ram-length": "fresh_ram_length",
    "nvr-length": "fresh_nvr_length",
    "allPass": "all_passed",
    "in_pieces": "played_in_pieces",
    "none-fails": "none_fails_where_passed",
    "some-page": "some_page_passes",
    "no-reply": "no_reply_told",
    "is-room": "stopped_for_room",
    "only-0xAA-is-off": "only_0xAA_is_off",
    "marked-P-hold": "marked_p_hold",
}

TOKEN = re.compile(r"(?<![0-9A-Za-z_'·-])[A-Za-z_][A-Za-z0-9_']*(?:-[A-Za-z0-9_'*]+)*")
DECLARED = re.compile(r"^\s*((?:pub |abbrev |unfoldable )*)([A-Za-z_][^\s:(){}]*(?: [A-Za-z_][^\s:(){}]*)*) :( |$)")
LET = re.compile(r"\blet ([A-Za-z_][^\s:(){}]*)")
IMPORT = re.compile(r"use (Rattle\.(\w+)|\w+)((?:\.[^\s{]+)*)\.\{([^}]*)\}")


def odd(name):
    return "-" in name or (name[0].islower() and re.search(r"[a-z0-9][A-Z]", name) is not None)


def snake(name):
    if name in APART:
        return APART[name]
    return re.sub(r"(?<=[a-z0-9])([A-Z])", lambda m: "_" + m.group(1).lower(), name.replace("-", "_"))


def code(text):
    return "\n".join(re.sub(r"(^|[ \t])--.*", "", line) for line in text.split("\n"))


def files(*patterns):
    return sorted({p for pattern in patterns for p in glob.glob(pattern, recursive=True)})


def read(path):
    with open(path, encoding="utf-8") as f:
        return f.read()


def own_names():
    """Names that files of specs/ or proofs/ declare, or bind, and that are not of the kit or generated."""
    crates = set(os.listdir("crates"))
    own, foreign = set(APART), set()
    for path in files("crates/*/specs/**/*.antt", "crates/*/proofs/**/*.antt"):
        walk = path.endswith("/Proof.antt")
        text = code(read(path))
        for line in text.split("\n"):
            found = DECLARED.match(line)
            if found and not (walk and re.search(r":\s*tie\.", line)):
                own.update(n for n in found.group(2).split() if odd(n) and not (walk and n.endswith("-spec")))
            if walk:
                own.update(n for n in LET.findall(line) if odd(n) and TOKEN.fullmatch(n))
            else:
                own.update(n for n in TOKEN.findall(line) if odd(n))
        for head, crate, rest, names in IMPORT.findall(text):
            if not (head.startswith("Rattle.") and crate in crates):
                foreign.update(n.strip().split(" as ")[0] for n in names.split(","))
            elif walk and re.search(r"\.proofs\..*\.(Tie|Statement|Lts)$", "." + head + rest):
                foreign.update(n.strip() for n in names.split(","))
    for path in files("crates/*/src/**/*.rt"):
        for item in re.findall(r"ghost\s+use\b[^;]*;", read(path)):
            own.update(n for n in re.findall(r" as ([^\s,}]+)", item) if odd(n))
    return {n: snake(n) for n in own - foreign}


def respelled(text, names):
    text = TOKEN.sub(lambda m: names.get(m.group(0), m.group(0)), text)
    return re.sub(r"(?<![^\s{,])([^\s{},]+) as \1(?=[\s,}])", r"\1", text)


def rust(text, names):
    """Everything but strings and comments."""
    parts = re.split(r"(//[^\n]*|b?\"(?:\\.|[^\"\\])*\"|b?'(?:\\.|[^'\\])')", text)
    return "".join(p if i % 2 else respelled(p, names) for i, p in enumerate(parts))


def antt(text, names):
    """The code, and not its comments."""
    parts = re.split(r"((?:^|(?<=[ \t]))--[^\n]*)", text, flags=re.M)
    return "".join(p if i % 2 else respelled(p, names) for i, p in enumerate(parts))


def markdown(text, names):
    """Code spans alone."""
    return re.sub(r"`[^`\n]+`", lambda m: respelled(m.group(0), names), text)


def main():
    names = own_names()
    if sys.argv[1:] == ["--list"]:
        for old in sorted(names):
            print(old, names[old])
        return
    for path in files("crates/*/specs/**/*.antt", "crates/*/proofs/**/*.antt", "crates/*/src/**/*.rt", "crates/*/must-fail/*.edit", "docs/**/*.md", "README.md"):
        old = read(path)
        if path.endswith(".rt"):
            new = rust(old, names)
        elif path.endswith(".md"):
            new = markdown(old, names)
        elif path.endswith(".edit"):
            new = respelled(old, names)
        else:
            new = antt(old, names)
        if new != old:
            with open(path, "w", encoding="utf-8") as f:
                f.write(new)


main()
