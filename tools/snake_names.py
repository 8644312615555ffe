#!/usr/bin/env python3
"""Spells the definitions and lemmas of this repository in snake case, once, after port.py.

usage: tools/snake_names.py        at the top of the repository

A name that a text of specs/ or proofs/ declares with a capital or a dash inside, as fooBar or foo-bar, becomes foo_bar wherever it stands:
in .antt files, in the clauses of .rt files, in edits, and (with a capital) in the pages. Types keep their capital. A name that a file imports from a
library stays there. Where a lemma would meet a definition, it gets _lem. Lines 'look:' name what is left to look at.
"""

import glob
import os
import re
import sys

# A parameter, and a fact, which is spelled as a type.
ALSO = {"recordLong": "record_long", "eventsOk": "events_ok", "countersOk": "counters_ok", "fillNamed": "FillNamed"}
OWN = {os.path.basename(c) for c in glob.glob("crates/*")}
WORDS = r"(?:(?:pub|abbrev|unfoldable|opaque|abstract)[ \t]+)*"
SIGNATURE = re.compile(rf"^[ \t]*{WORDS}([^\s(){{}}.;,@\"«»:]+)(?:[ \t]+(?:\{{[^{{}}\n]*\}}|\([^()\n]*\)))*[ \t]*:(?=\s)", re.M)
SEVERAL = re.compile(rf"^[ \t]*(?:pub[ \t]+)?((?:[^\s(){{}}.;,@\"«»:]+[ \t]+)+[^\s(){{}}.;,@\"«»:]+)[ \t]*:(?=\s)", re.M)
TOKEN = re.compile(r'[^\s(){}.;,@"«»]+')
USE = re.compile(r"^[ \t]*(?:ghost )?(?:pub )?use ([^\s;{]+)\.\{([^}]*)\}", re.M)
ALIAS = re.compile(r"^[ \t]*(?:ghost )?(?:pub )?use ([^\s;{]+)(?: as ([^\s;]+))?[ \t]*;?[ \t]*$", re.M)
GENERATED = re.compile(r"^[ \t]*(?:abbrev )?(?:pub )?([^\s(){}.;,@\"«»:]+)[ \t]*:[^\n]*\btie\.(?:Need-|invariant-|decreases-)", re.M)


def snake(name):
    name = re.sub(r"(?<=[a-z0-9])([A-Z]+)(?=[A-Z][a-z])|(?<=[a-z0-9])([A-Z]+)", lambda m: "_" + m[0].lower(), name)
    return name.replace("-", "_")


def of_library(path):
    steps = path.split(".")
    return not (steps[0] == "Rattle" and len(steps) > 1 and steps[1] in OWN) and steps[0] not in ("package", "tie")


def is_wanted(name):
    return bool(re.search(r"[a-z0-9][A-Z]|[^-]-[^-]", name)) and name[0].islower() and not re.search(r"[◌→←≤<>=]", name)


def read(path):
    with open(path, encoding="utf-8") as f:
        return f.read()


def imported(text):
    """The names that a file takes from a library, and the aliases of modules."""
    lib, alias = set(), set()
    for m in USE.finditer(text):
        if of_library(m[1]):
            lib |= {w.split(" as ")[0].strip() for w in m[2].split(",")}
    for m in ALIAS.finditer(text):
        alias.add(m[2] or m[1].split(".")[-1])
    return lib, alias


def declared(text):
    names = {m[1] for m in SIGNATURE.finditer(text)}
    for m in SEVERAL.finditer(text):
        words = m[1].split()
        if not {"pub", "abbrev", "unfoldable"} & set(words[1:]) and "=" not in words and "data" not in words and "record" not in words:
            names |= set(words)
    return names


def turned(text, names, lib, alias, is_code):
    """The text with its names respelled. In comments only names with a capital."""
    out = []
    for line in text.split("\n"):
        cut = line.find("//" if is_code else "--")
        if cut >= 0 and not is_code and not re.match(r"(^|.*\s)--", line[: cut + 2]):
            cut = -1
        body, comment = (line, "") if cut < 0 else (line[:cut], line[cut:])

        def new(m, quiet=False):
            word = m[0]
            if word not in names or word in lib:
                return word
            if "-" in word:
                if quiet:
                    return word
                before = body[: m.start()]
                if before.endswith("."):
                    q = re.search(r'([^\s(){}.;,@"«»]+)\.$', before)
                    field = names[word][1]
                    if not field and not (q and (q[1] in alias or q[1][0].isupper())):
                        return word
            return names[word][0]

        body = TOKEN.sub(new, body)
        comment = re.sub(r"[A-Za-z]\w*", lambda m: new(m, True), comment)
        out.append(body + comment)
    return "\n".join(out)


def main():
    antt = sorted(glob.glob("crates/*/specs/**/*.antt", recursive=True) + glob.glob("crates/*/proofs/**/*.antt", recursive=True))
    of_function = {p for p in antt if os.path.basename(p) in ("Proof.antt", "Answers.antt", "Invariants.antt")}
    texts = {p: read(p) for p in antt}
    shared, fields, where = set(), set(), {}
    for p in antt:
        if p in of_function:
            continue
        for n in declared(texts[p]):
            if is_wanted(n):
                shared.add(n)
                where.setdefault(n, set()).add(p)
        for block in re.finditer(r"^([ \t]*)(?:pub )?record [^\n]*where\n((?:\1[ \t]+[^\n]*\n|\n)*)", texts[p], re.M):
            fields |= {n for n in declared(block[2]) if is_wanted(n)}
    names = {n: (ALSO.get(n, snake(n)), n in fields) for n in shared | set(ALSO)}
    where.update({n: {"crates/replies/specs/Replies.antt"} for n in ALSO if n not in where})
    # a lemma gives way to a definition, and of two lemmas the second
    spelled = {}
    plain = set()
    for p in antt:
        if p not in of_function:
            plain |= {n for n in declared(texts[p]) if not is_wanted(n)}
    for n in sorted(names, key=lambda n: (all("/proofs/" in p for p in where[n]), "-" in n, n)):
        new = names[n][0]
        if "-" not in n and any("/specs/" in p for p in where[n]):
            together = []  # a definition: what its name meets are fields and functions of Rust, which stand apart
        elif new in spelled or new in plain:
            together = [p for p in antt if n in (ws := set(TOKEN.findall(texts[p]))) and (new in ws or spelled.get(new) in ws)]
        else:
            together = []
        if together:
            print(f"look: {n} would meet {spelled.get(new, new)} in {together[0]} and {len(together) - 1} more: {new}_lem")
            new = new + "_lem"
            names[n] = (new, names[n][1])
        spelled.setdefault(new, n)
    files = antt + sorted(glob.glob("crates/*/src/**/*.rt", recursive=True)) + sorted(glob.glob("crates/*/must-fail/*.edit") + glob.glob("tests/more-edits/*/*.edit"))
    changed = 0
    for p in files:
        text = texts.get(p) or read(p)
        lib, alias = imported(text)
        mine = dict(names)
        if p in of_function:
            made = {m[1] for m in GENERATED.finditer(text)}
            for n in declared(text):
                if is_wanted(n) and n not in mine and n not in made and not n.endswith("-spec"):
                    mine[n] = (snake(n), False)
            for n in made:
                mine.pop(n, None)
        for n in {"pair_ok"} if p == "crates/bandwidth_model/proofs/Settings.antt" else ():
            mine[n] = (n + "_lem", False)  # the lemma of pairOk
        words = set(TOKEN.findall(text))
        for n in words & set(mine):
            if n not in lib and mine[n][0] in words and mine[n][0] != n:
                print(f"look: {p}: {n} becomes {mine[n][0]}, which stands there already")
        if p.endswith(".rt"):
            mine = {n: v for n, v in mine.items() if "-" not in n}
        new = turned(text, mine, lib, alias, p.endswith(".rt"))
        if new != text:
            changed += 1
            with open(p, "w", encoding="utf-8") as f:
                f.write(new)
    capitals = {n: v for n, v in names.items() if "-" not in n}
    for p in ["README.md", "CONTRIBUTING.md", *sorted(glob.glob("docs/*.md"))]:
        text = read(p)
        new = re.sub(r"[A-Za-z]\w*", lambda m: capitals[m[0]][0] if m[0] in capitals else m[0], text)
        if new != text:
            changed += 1
            with open(p, "w", encoding="utf-8") as f:
                f.write(new)
    print(f"{len(names)} names, {changed} files")


main()
