#!/usr/bin/env python3
"""Respells this repository's own definitions and lemmas: words in snake case, types in camel case.

usage: python3 tools/respell.py [--list]      at the top of the repository, once, after the kit's port.py

A name turns if a file of specs/ or a lemma file of proofs/ has it, it is none of the kit's, and it has a hyphen. `put-keeps` becomes `put_keeps`, and `Put-keeps` becomes
`PutKeeps`. Names that the kit makes or has (goals, facts of a step, lemmas of std and mathlib) stay as they are, and so do functions of src/,
strings, inputs and outputs. A must-fail edit turns with the file that it edits. It names each file in which two words become one, for a reader to
look at, and then ends with 1: a definition may have the name of a function or a field of src/. --list prints the table and these files, and writes nothing.
"""

import os
import re
import sys

NAME = re.compile(r"[^\s(){}\[\].,;:@\"«»`|!?*/\\]+")
KIT = re.compile(r"\buse\s+(?:mathlib|Prim|lib|native|borrow|Rattle\.(?:std|core)\b)[^\n{;]*(?:\{([^}]*)\})?", re.S)
MADE = re.compile(r"\buse\s+[\w.'+-]*\.(?:Goals|Given|TheVariants)\.\{([^}]*)\}", re.S)
GOAL = re.compile(r"(?m)^(?:abbrev )?pub ([^\s:]+) : (?:goal|need|given)\.")
ALIAS = re.compile(r"(?<=\s)as ([^\s,}]+)")
LET = re.compile(r"\blet\s+([^\s(){};:=]+)\s*(?::|=)")
BOUND = re.compile(r"[({]([^(){}:λ→]+?) : ")
LAMBDA = re.compile(r"λ ([^.(){}]*?)\.\s")


def files(root, kinds):
    for folder, dirs, names in os.walk(os.path.join(root, "crates")):
        dirs[:] = sorted(d for d in dirs if d != "out")
        for name in sorted(names):
            if name.endswith(kinds):
                yield os.path.join(folder, name)


def read(path):
    with open(path, encoding="utf-8") as f:
        return f.read()


def bare(text):
    return re.sub(r"(?m)(^|(?<=\s))--.*$", "", text)


def respelled(name):
    head = name.rstrip("'")
    tail = name[len(head):]
    words = head.split("-")
    if head[:1].isupper():
        return "".join(w[:1].upper() + w[1:] for w in words) + tail
    return "_".join(words) + tail


def generated(path):
    return re.search(r"/proofs/(?:.*/)?(?:Answers|Invariants|Choices|Proof)\.antt$", path)


def table(root):
    own, kit = set(), set()
    for path in files(root, ".antt"):
        text = bare(read(path))
        for pattern in (KIT, MADE):
            for items in pattern.findall(text):
                kit.update(NAME.findall(re.sub(r" as [^\s,}]+", "", items)))
        kit.update(GOAL.findall(text))
        found = set(ALIAS.findall(text))
        if generated(path):
            found |= set(LET.findall(text))
            for group in BOUND.findall(text) + LAMBDA.findall(text):
                found.update(group.split())
        else:
            found |= set(NAME.findall(text))
        own |= {n for n in found if "-" in n.strip("-") and "◌" not in n and not n.startswith("goal") and re.fullmatch(r"[\w'-]+", n)}
    return {n: respelled(n) for n in sorted(own - kit)}, kit


def turner(rows):
    def turn(match):
        return rows.get(match[0], match[0])

    return lambda text: NAME.sub(turn, text)


def turn_lines(text, mark, turn, turn_code):
    """Turns the code of each line, and of its comment, which begins with mark, what stands in backquotes."""
    lines = []
    for line in text.split("\n"):
        at = re.search(rf"(?:^|(?<=\s)){mark}", line)
        code, comment = (line[: at.start()], line[at.start():]) if at else (line, "")
        lines.append(turn_code(code) + re.sub(r"`[^`\n]*`", lambda m: "`" + turn(m[0][1:-1]) + "`", comment))
    return "\n".join(lines)


def turn_antt(text, turn):
    def turn_code(code):
        return "".join(p if i % 2 else turn(p) for i, p in enumerate(re.split(r"(\"(?:[^\"\\]|\\.)*\")", code)))

    return turn_lines(text, "--", turn, turn_code)


def turn_rt(text, turn):
    def turn_code(code):
        is_ghost = re.search(r"\b(?:ghost|requires|ensures)\b", code) or re.search(r"[≡≤≢λ→×]", code)
        return turn(code) if is_ghost else code

    return turn_lines(text, "//", turn, turn_code)


def turn_edit(text, turn):
    target = re.search(r"(?m)^file: (.*)$", text)[1]
    one = turn_antt if target.endswith(".antt") else turn_rt
    return "\n".join(l[:5] + one(l[5:], turn) if l.startswith(("old: ", "new: ")) else l for l in text.split("\n"))


def main(argv):
    root = os.getcwd()
    rows, kit = table(root)
    turn = turner(rows)
    bad = 0
    for path in files(root, (".antt", ".rt")):
        text = bare(read(path)) if path.endswith(".antt") else read(path)
        here = set(NAME.findall(text))
        became = {}
        for n in sorted(here):
            became.setdefault(rows.get(n, n), []).append(n)
        for new, olds in became.items():
            if len(olds) > 1:
                bad += 1
                print(f"{os.path.relpath(path, root)}: {' and '.join(olds)} would both be {new}")
    if "--list" in argv:
        for old, new in rows.items():
            print(f"{old}\t{new}")
        return 1 if bad else 0
    for path in files(root, (".antt", ".rt", ".edit")):
        text = read(path)
        one = turn_antt if path.endswith(".antt") else turn_rt if path.endswith(".rt") else turn_edit
        new = one(text, turn)
        if new != text:
            with open(path, "w", encoding="utf-8") as f:
                f.write(new)
    return 1 if bad else 0


if __name__ == "__main__":
    raise SystemExit(main(sys.argv[1:]))
