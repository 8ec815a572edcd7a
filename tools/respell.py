#!/usr/bin/env python3
"""Respells the repository's own definitions, fields and lemmas as today's Rattle spells names: words in snake case, facts and types in upper camel case.

usage: python3 tools/respell.py            at the top of the repository, once, after /opt/rattle/port/port.py

A name is one that a file of crates/*/specs/ or of crates/*/proofs/ itself declares, or brings in with `as`, and that has a dash. It is respelled wherever it stands as a whole
word: in specs/ and proofs/, and in the clauses, ghost items and ghost imports of src/. Code, comments, strings, must-fail edits, inputs and outputs stay
as they are, and so do names that Rattle generates. The library's `AllByRecursion`, which port.py brings in under the name of another word of the library,
gets its own name, and a member of a bound, which port.py leaves bare in some clauses, is written behind its parameter. A new name that another definition has already is printed, and nothing is written.
"""

import collections
import glob
import os
import re
import sys

HEAD = re.compile(r"^\s*(?:(?:abbrev|pub|unfoldable|record|data|private)\s+)*([^\s:(){}.,;=]+)(?:\s+(?:\([^()]*(?:\([^()]*\)[^()]*)*\)|\{[^{}]*\}))*\s*:(?:\s|$)")
WORD = re.compile(r"[^\s(){}\[\].,;:=\"`|]+")
ALIAS = "AllByRecursion as All"
# members of the bounds P: Placement and J: Judge or SizingJudge; what port.py makes of Rank·Rank differs with what it was run on
MEMBERS = [
    (re.compile(r"(?<![\w.])Rank(?:·|-as-)Rank ?\.first\b"), "P.Rank.Rank.first"),
    (re.compile(r"\((ranks) "), r"(P.\1 "),
    (re.compile(r"\((allows|accepts) "), r"(J.\1 "),
]
GHOST = re.compile(r"(?m)^[ \t]*(?:ghost use\b|ghost\b|law\b|requires\*?\b|ensures\*?\b)")


def code_of(line):
    """A line of antt without its comment, and the comment."""
    m = re.search(r"(?:^|\s)--(?:\s|$)", line)
    return (line, "") if not m else (line[: m.start()], line[m.start():])


def declared():
    names = collections.defaultdict(set)
    for path in glob.glob("crates/*/specs/**/*.antt", recursive=True) + glob.glob("crates/*/proofs/*.antt"):
        with open(path, encoding="utf-8") as f:
            for line in f:
                m = HEAD.match(code_of(line)[0])
                if m and "-" in m[1] and m[1][0].isalpha():
                    names[m[1]].add(path)
    for path in glob.glob("crates/**/*.antt", recursive=True) + glob.glob("crates/*/src/*.rt"):
        with open(path, encoding="utf-8") as f:
            for line in f:
                if line.startswith(("use ", "ghost use ")):
                    for alias in re.findall(r" as ([A-Za-z][^\s,{}]*-[^\s,{}]*)", line):
                        names[alias].add(path)
    return names


def plain():
    """The names without a dash that are declared or are functions of src/."""
    found = set()
    for path in glob.glob("crates/*/specs/**/*.antt", recursive=True) + glob.glob("crates/*/proofs/*.antt"):
        with open(path, encoding="utf-8") as f:
            for line in f:
                m = HEAD.match(code_of(line)[0])
                if m and "-" not in m[1]:
                    found.add(m[1])
    return found


def imported():
    """Names that some file takes from elsewhere: from the library, or from what Rattle generates."""
    found = collections.defaultdict(set)
    crates = {os.path.basename(p) for p in glob.glob("crates/*")}
    for path in glob.glob("crates/**/*.antt", recursive=True) + glob.glob("crates/*/src/*.rt"):
        with open(path, encoding="utf-8") as f:
            text = f.read()
        for m in re.finditer(r"(?m)^(?:ghost )?use ([^\s{]+)\.\{([^}]*)\}", text):
            parts = m[1].split(".")
            if parts[0] == "Rattle" and parts[1] in crates and "declared" not in parts:
                continue
            for name in m[2].split(","):
                found[name.strip().split(" as ")[0]].add(path)
    return found


def answers():
    """Names of goals: what the files of a function's proof declare."""
    found = set()
    for path in glob.glob("crates/*/proofs/*/**/*.antt", recursive=True):
        with open(path, encoding="utf-8") as f:
            for line in f:
                m = re.match(r"^(?:abbrev )?pub ([^\s:]+) : goal\.", line)
                if m:
                    found.add(m[1])
    return found


def respelled(name):
    parts = name.split("-")
    if name[0].isupper():
        return "".join(p[:1].upper() + p[1:] for p in parts)
    return "_".join(parts)


def turn_words(text, names):
    return WORD.sub(lambda m: names.get(m[0], m[0]), text)


def turn_antt(text, names):
    if ALIAS in text:
        text, names = text.replace(ALIAS, "AllByRecursion"), names | {"All": "AllByRecursion"}
    lines = []
    for line in text.split("\n"):
        code, comment = code_of(line)
        lines.append(turn_words(code, names) + comment)
    return "\n".join(lines)


def region_end(text, at):
    """The end of a ghost item that begins at a place: its semicolon or comma at depth 0, or the brace that closes its block."""
    deep = 0
    for i in range(at, len(text)):
        c = text[i]
        if c == "{":
            deep += 1
        elif c == "}":
            deep -= 1
            if deep == 0:
                return i + 1
        elif c == ";" and deep == 0:
            return i + 1
    return len(text)


def turn_rust(text, names):
    if ALIAS in text:
        text, names = text.replace(ALIAS, "AllByRecursion"), names | {"All": "AllByRecursion"}
    out, at = [], 0
    for m in GHOST.finditer(text):
        if m.start() < at:
            continue
        end = region_end(text, m.start())
        clause = turn_words(text[m.start(): end], names)
        if "pub trait" not in text:
            for pattern, new in MEMBERS:
                clause = pattern.sub(new, clause)
        out += [text[at: m.start()], clause]
        at = end
    return "".join(out) + text[at:]


def main():
    if not os.path.exists("crates.txt"):
        print("respell: run it at the top of the repository", file=sys.stderr)
        return 2
    own, taken, goals, others = declared(), imported(), answers(), plain()
    names = {n: respelled(n) for n in own if n not in taken and n not in goals}
    kept = sorted(n for n in own if n not in names)
    back = collections.defaultdict(list)
    for old, new in names.items():
        back[new].append(old)
    clash = [(new, olds) for new, olds in sorted(back.items()) if len(olds) > 1 or new in others or new in taken]
    for new, olds in clash:
        print("falls together:", new, "<-", " ".join(f"{o} ({', '.join(sorted(own[o])[:3])})" for o in olds), "| taken:", new in others or new in taken)
    if clash and "--force" not in sys.argv:
        return 1
    for n in kept:
        print("kept, since it is also taken from elsewhere:", n, sorted(own[n])[:2], sorted(taken.get(n, ()))[:2])
    changed = 0
    for path in glob.glob("crates/**/*.antt", recursive=True) + glob.glob("crates/*/src/**/*.rt", recursive=True):
        if "/out/" in path:
            continue
        with open(path, encoding="utf-8") as f:
            text = f.read()
        new = turn_antt(text, names) if path.endswith(".antt") else turn_rust(text, names)
        if new != text:
            changed += 1
            with open(path, "w", encoding="utf-8") as f:
                f.write(new)
    print(f"respell: {len(names)} names, {changed} files")
    return 0


if __name__ == "__main__":
    sys.exit(main())
