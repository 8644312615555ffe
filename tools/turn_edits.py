#!/usr/bin/env python3
"""Spells the edits of must-fail/ and tests/more-edits as the sources that they change are spelled today, and tries whether they fit.

usage: tools/turn_edits.py         at the top of the repository: respells the edits, and then tries each
       tools/turn_edits.py try     only tries them

A name that a source had before the port, and has no more, becomes the one that stands in its place now; `f x .y` becomes `(f x).y`, and a clause about
`now (t .exit)` one about `t.new`. An edit fits where each old: TEXT stands once in its file, as the pairs before it left that file. Lines 'look:' name the others.
"""

import collections
import difflib
import glob
import re
import subprocess
import sys

BEFORE = "8e68796"  # the last commit before the port
TOKEN = re.compile(r"[A-Za-z_][\w'-]*|[^\s\w]|\d\w*")
STEP = re.compile(r"\s*(λ[^.]*\.(?=\s)|\.[a-z]\w*|[()]|[^\s()]+)")


def read(path):
    with open(path, encoding="utf-8") as f:
        return f.read()


def edits():
    return sorted(glob.glob("crates/*/must-fail/*.edit") + glob.glob("tests/more-edits/*/*.edit"))


def crate_of(path):
    steps = path.split("/")
    return steps[1] if steps[0] == "crates" else steps[2]


def respelled():
    """The names that another name took the place of, by the sources before the port and those of today."""
    was = collections.defaultdict(collections.Counter)
    there = set()
    for path in sorted(glob.glob("crates/*/src/*.rt") + glob.glob("crates/*/specs/**/*.antt", recursive=True)):
        now = TOKEN.findall(read(path))
        there |= set(now)
        before = subprocess.run(["git", "show", f"{BEFORE}:{path}"], capture_output=True, text=True)
        if before.returncode:
            continue
        old = TOKEN.findall(before.stdout)
        for kind, i, to_i, j, to_j in difflib.SequenceMatcher(None, old, now, autojunk=False).get_opcodes():
            if kind == "replace" and to_i - i == to_j - j:
                for a, b in zip(old[i:to_i], now[j:to_j]):
                    if re.match(r"[a-z]", a) and re.match(r"[a-z]", b):
                        was[a][b] += 1
    names = {}
    for a, found in was.items():
        b, times = found.most_common(1)[0]
        plain = re.sub(r"(?<=[a-z0-9])([A-Z]+)", lambda m: "_" + m[1].lower(), a).replace("-", "_")
        if a not in there and (b == plain or times > 2):
            names[a] = b
    return names


def tight(text):
    """`(f x .y)` as `(f x).y` and `(x .y)` as `x.y`."""
    if not re.search(r"\s\.[a-z]", text):
        return text
    out = [[]]
    marks = []
    place = 0
    chain = [0]
    while place < len(text):
        m = STEP.match(text, place)
        if not m:
            break
        gap = text[place : m.start(1)]
        step = m[1]
        place = m.end()
        here = out[-1]
        if step == "(":
            marks.append(gap)
            out.append([])
            chain.append(0)
        elif step == ")" and marks:
            inner = out.pop()
            chain.pop()
            before = marks.pop()
            body = "".join(g + s for g, s in inner)
            is_path = len(inner) == 1 and re.fullmatch(r"[\w()]+(\.\w+)+|\(.*\)(\.\w+)+", body.strip())
            out[-1].append((before, body.strip() if is_path else "(" + body + ")"))
        elif step[0] == "." and gap and here:
            first = chain[-1]
            if len(here) - first == 1:
                here[-1] = (here[-1][0], here[-1][1] + step)
            else:
                lead = here[first][0]
                body = "".join(g + s for g, s in here[first:])[len(lead) :]
                here[first:] = [(lead, "(" + body + ")" + step)]
        else:
            here.append((gap, step))
            if not re.match(r"[\w«'(]", step) or step in ("if", "then", "else", "in", "let", "gives", "pub") or step.startswith("λ"):
                chain[-1] = len(here)
    while marks:
        inner = out.pop()
        out[-1].append((marks.pop(), "(" + "".join(g + s for g, s in inner)))
    return "".join(g + s for g, s in out[0]) + text[place:]


def clause(text):
    text = re.sub(r"\bnow \((\w+) \.exit\)", r"\1.new", text)
    text = re.sub(r"\(now \((\w+) \.entry\)\)|\bnow \((\w+) \.entry\)", lambda m: (m[1] or m[2]) + ".old", text)
    return re.sub(r"\{ λ \w+\. ⌜ (.*?) ⌝ \}", r"{ \1 }", text)


def turned(line, names):
    m = re.match(r"(old|new): ", line)
    if not m:
        return line
    text = line[5:]
    text = clause(text)
    lead = text[: len(text) - len(text.lstrip())]
    text = re.sub(r"(?<![\w'])[A-Za-z_][\w'-]*", lambda n: names.get(n[0], n[0]), text)
    return m[0] + lead + tight(text[len(lead) :])


def tried(path):
    """What does not fit of an edit."""
    file = text = old = None
    for line in read(path).split("\n"):
        if line.startswith("file: "):
            file = f"crates/{crate_of(path)}/{line[6:]}"
            text = read(file)
        elif line.startswith("old: "):
            old = line[5:]
        elif line.startswith("new: "):
            if text.count(old) != 1:
                yield f"look: {path}: {text.count(old)} times in {file}: {old}"
            text = text.replace(old, line[5:])


if sys.argv[1:] != ["try"]:
    names = respelled()
    for path in edits():
        text = read(path)
        new = "\n".join(turned(line, names) for line in text.split("\n"))
        if new != text:
            with open(path, "w", encoding="utf-8") as f:
                f.write(new)
looks = [look for path in edits() for look in tried(path)]
print("\n".join(looks + [f"{len(edits())} edits, {len(looks)} texts to look at"]))
sys.exit(1 if looks else 0)
