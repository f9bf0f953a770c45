#!/usr/bin/env python3
"""Spells the definitions and lemmas that this repository declares as today's Rattle does: words in snake case.

usage: python3 tools/respell.py [FOLDER]    FOLDER is the top of the repository, this folder if left out

It runs once, after port.py. A name that specs/ or a law file of proofs/ declares, and that has a dash or a capital inside, gets underscores
in every .antt file, in the clauses and `ghost use` lines of every .rt file, in the must-fail edits and in the code spans of docs/ and README.
Types, facts and modules keep their capitals. Strings, comments, Rust's own names and what a file takes from the kit stay as they are.
APART has the names that would fall together with another: each with the name that it gets in their place.
"""

import os
import re
import sys

APART = {
    "content-of": "content_without_end",
    "number-of": "judged_number",
    "row-of": "row_given",
    "section-of": "section_said",
    "sound-at": "sound_here",
    "step-at": "step_here",
    "table-of": "table_index",
    "trailer-of": "trailer_finding",
}

NAME = r"[^\s(){}.;,@\"«»]+"
WORDS = {"pub", "abbrev", "unfoldable", "opaque", "record", "data", "module", "where", "instance", "let", "private"}
DECLARED = re.compile(rf"(?m)^ *(?:(?:{'|'.join(sorted(WORDS))}) +)*({NAME})(?: +\{{[^{{}}\n]*\}}| +\([^()\n]*\)| +{NAME})*? *:(?= |$)")
SEVERAL = re.compile(rf"(?m)^ *((?:{NAME} +)+)(?:\{{[^{{}}\n]*\}} *)*:(?= |$)")
USE = re.compile(r"\buse +([^\s;{]+)((?:\{[^}]*\})?)(?: +as +([^\s;]+))?")
TOKEN = re.compile(r"\"(?:[^\"\\\n]|\\.)*\"|--[^\n]*|" + NAME + r"|.|\n", re.S)
GHOST = re.compile(r"ghost\s+use\b[^;]*;|\b(?:requires|ensures|ghost)\s*\*?\s*(?:\w+\s*[:=]?\s*)?(?=\{)")
ANSWERS = {"Proof.antt", "Answers.antt", "Invariants.antt"}


def snake(name):
    if name in APART:
        return APART[name]
    parts = [p if p[:1].isupper() else re.sub(r"(?<=[a-z0-9])[A-Z]", lambda m: "_" + m[0].lower(), p) for p in name.split("-")]
    return "_".join(parts)


def files(top, ending):
    for folder, dirs, names in os.walk(os.path.join(top, "crates")):
        dirs[:] = sorted(d for d in dirs if d != "out")
        for n in sorted(names):
            if n.endswith(ending):
                yield os.path.join(folder, n)


def read(path):
    with open(path, encoding="utf-8") as f:
        return f.read()


def write(path, old, new):
    if old != new:
        with open(path, "w", encoding="utf-8") as f:
            f.write(new)


def declared(top):
    found = set()
    for p in files(top, ".antt"):
        if "/proofs/" in p and os.path.basename(p) in ANSWERS:
            continue
        text = re.sub(r"--.*", "", read(p))
        found |= {m[1] for m in DECLARED.finditer(text)}
        for m in SEVERAL.finditer(text):
            found |= set(m[1].split())
    return found - WORDS


def foreign(text, crates):
    """What a file takes from the kit: the names, and the words that stand for its modules."""
    names, heads = set(), set()
    for m in USE.finditer(text):
        steps = m[1].rstrip(".").split(".")
        if steps[0] == "Rattle" and len(steps) > 1 and steps[1] in crates:
            continue
        names |= set(re.findall(NAME, m[2].strip("{}").replace(",", " ")))
        heads.add(m[3] or steps[-1])
        heads |= names
    return names, heads


def turn(text, spelt, kept, heads):
    out, behind = [], ""
    for m in TOKEN.finditer(text):
        t = m[0]
        if t in spelt and t not in kept and not (len(out) > 1 and out[-1] == "." and behind in heads):
            out.append(spelt[t])
        else:
            out.append(t)
        if t != ".":
            behind = t
    return "".join(out)


def closing(text, i):
    deep = 0
    for k in range(i, len(text)):
        deep += (text[k] == "{") - (text[k] == "}")
        if not deep:
            return k + 1
    return len(text)


def turn_source(text, spelt, kept, heads):
    out, at = [], 0
    for m in GHOST.finditer(text):
        if m.start() < at:
            continue
        end = m.end() if m[0].endswith(";") else closing(text, m.end())
        out += [text[at : m.start()], turn(text[m.start() : end], spelt, kept, heads)]
        at = end
    return "".join(out) + text[at:]


def turn_edit(text, names):
    def one(m):
        new = snake(m[0])
        return new if new != m[0] and (m[0] in names or new in names) else m[0]

    lines = []
    for line in text.split("\n"):
        lines.append(re.sub(rf"\"(?:[^\"\\]|\\.)*\"|{NAME}", lambda m: m[0] if m[0][0] == '"' else one(m), line) if re.match(r"(old|new): ", line) else line)
    return "\n".join(lines)


def turn_page(text, names):
    def one(m):
        new = snake(m[0])
        return new if new != m[0] and (m[0] in names or new in names) else m[0]

    return re.sub(r"`[^`\n]+`", lambda s: re.sub(NAME.replace("«»", "«»`"), one, s[0]), text)


def main(top):
    crates = set(os.listdir(os.path.join(top, "crates")))
    names = declared(top)
    spelt = {n: snake(n) for n in names if snake(n) != n}
    for p in files(top, ".antt"):
        text = read(p)
        write(p, text, turn(text, spelt, *foreign(text, crates)))
    for p in files(top, ".rt"):
        text = read(p)
        write(p, text, turn_source(text, spelt, *foreign(text, crates)))
    for p in files(top, ".edit"):
        text = read(p)
        write(p, text, turn_edit(text, names))
    pages = [os.path.join(top, "README.md")]
    for folder, dirs, found in os.walk(os.path.join(top, "docs")):
        pages += [os.path.join(folder, n) for n in sorted(found) if n.endswith(".md")]
    for p in pages:
        text = read(p)
        write(p, text, turn_page(text, names))
    meets = {}
    for n in sorted(names):
        meets.setdefault(snake(n), []).append(n)
    for new, old in meets.items():
        if len(old) > 1:
            print(f"fall together: {' '.join(old)} as {new}")
    print(f"{len(spelt)} names of {len(names)} spelt anew")


if __name__ == "__main__":
    main(sys.argv[1] if len(sys.argv) > 1 else ".")
