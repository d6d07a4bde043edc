#!/usr/bin/env python3
"""Lists the places in the code that an older language shaped, point by point: candidates to read, not verdicts.

  python3 tools/places.py          counts
  python3 tools/places.py -v       counts and places
  python3 tools/places.py -v 3     the places of one point
"""
import re
import sys
from collections import defaultdict
from pathlib import Path

ROOT = Path(__file__).resolve().parent.parent


def listed():
    for line in (ROOT / "crates.txt").read_text().splitlines():
        name = re.split(r"[\s:(]", line.strip())[0]
        if name and not name.startswith("#"):
            yield name


FILES = [f for c in listed() for f in sorted((ROOT / "crates" / c / "src").glob("*.rt"))]
TEXTS = {f.relative_to(ROOT / "crates"): f.read_text() for f in FILES}


def code(line):
    """A line without its comment."""
    return line.split("//")[0]


def matching(*patterns):
    """The lines of code that any of the patterns fits."""
    found = []
    for file, text in TEXTS.items():
        for number, line in enumerate(text.splitlines(), 1):
            if any(re.search(p, code(line)) for p in patterns):
                found.append(f"{file}:{number}: {line.strip()}")
    return found


def functions():
    """Every function: file, name, the parameters, the clauses, the body."""
    head = re.compile(r"^( *)(?:pub(?:\(crate\))? )?(?:const )?fn (\w+)", re.M)
    for file, text in TEXTS.items():
        for found in head.finditer(text):
            rest = text[found.end():]
            depth, end = 0, 0
            for end, letter in enumerate(rest):
                depth += (letter in "(<") - (letter == ")" or letter == ">" and rest[end - 1] != "-")
                if letter == ")" and depth == 0:
                    break
            params = re.findall(r"(?:mut )?(\w+): ([^,()]+(?:\([^)]*\))?)", rest[:end])
            indent = found.group(1)
            start = re.search(rf"(?:\n{indent}\{{|[ )]\{{)(?=\n)|\{{\}}|;\n", rest[end:])
            if not start:
                continue
            after = rest[end + start.start():]
            close = re.search(rf"\n{indent}\}}", after)
            yield file, found.group(2), params, rest[end:end + start.start()], after[:close.start()] if close else ""


def shape(body):
    """A body with its names and numbers left out."""
    body = "\n".join(code(line) for line in body.splitlines())
    words = re.findall(r"\w+|[^\w\s]", body)
    keep = {"match", "if", "else", "for", "while", "let", "return", "mut", "in", "Some", "None", "Ok", "Err"}
    return " ".join(w if w in keep or not w[0].isalnum() else "x" for w in words)


def twins():
    """Functions of the same shape, of more than a few words."""
    groups = defaultdict(list)
    for file, name, _, _, body in functions():
        if len(shape(body).split()) > 12:
            groups[shape(body)].append(f"{file}: {name}")
    return [" = ".join(g) for g in groups.values() if len(g) > 1]


def together():
    """Three parameters, or two that are no tables, that stand together in three or more functions."""
    groups = defaultdict(list)
    for file, name, params, _, _ in functions():
        names = [n for n, _ in params]
        for i in range(len(names)):
            for j in range(i + 2, len(names) + 1):
                groups[tuple(names[i:j])].append(f"{file}:{name}")
    wide = {k: v for k, v in groups.items() if len(v) > 2}
    longest = [k for k in wide if not any(set(k) < set(o) and len(wide[o]) >= len(wide[k]) for o in wide)]
    return [f"{', '.join(k)}: {len(wide[k])} functions" for k in longest]


def facts():
    """Terms over a parameter that stand in the clauses of three or more functions."""
    seen = defaultdict(set)
    for file, name, _, clauses, _ in functions():
        for term in re.findall(r"\((?:seen|numbers|tables|texts_of|held|view|phased) [^()]*\)|\w+ ≤ length \w+|length \([^()]*\) ≤ \w+", clauses):
            seen[re.sub(r"\b(old|new|now|entry|self|result)\b", "_", term)].add(f"{file}:{name}")
    return [f"{k}: {len(v)} functions" for k, v in seen.items() if len(v) > 2]


def bare_derives():
    """Types with no equality."""
    found = []
    for file, text in TEXTS.items():
        text = "\n".join(code(line) for line in text.splitlines())
        for derive, name in re.findall(r"(?:#\[derive\(([^)]*)\)\]\n)?(?:pub(?:\(crate\))? )?(?:struct|enum) (\w+)", text):
            if "PartialEq" not in derive:
                found.append(f"{file}: {name}: {derive or 'no derive'}")
    return found


POINTS = {
    1: ("a value for nothing, a flag with a value beside it, numbers for kinds or stages",
        lambda: matching(r"^\s*(Nothing|None|Empty),", r"^\s*(pub )?\w+: bool,", r"\b(kind|stage): u32,$", r"const [A-Z_]+: u32 = \d+;", r"fn \w+(<.*>)?\(\) -> u8")),
    2: ("functions of the same shape", twins),
    3: ("loops that count an index", lambda: matching(r"\bwhile .*<", r"for \w+ in 0\.\.", r"\.enumerate\(\)", r"\+= 1;", r"\.iter_mut\(\) \{")),
    4: ("types with no equality, and conversions and printing by hand",
        lambda: bare_derives() + matching(r"fn (number|name|ending|tell\w*|number_of|explanation)\(", r"impl .*Display", r"None => (return )?Err\(", r"Err\(\w+\) => Err\(\w+\)")),
    5: ("parameters that travel together, and facts in many contracts", lambda: together() + facts()),
    6: ("a buffer with a length or a count beside it, and indices for links",
        lambda: matching(r"^\s*(pub(\(crate\))? )?(len|taken|nodes_taken|descriptors_taken|written|end|next): (u32|usize),")),
    7: ("a match of many steps, tables of functions", lambda: matching(r"match (at|kind|position|step)\b", r"if kind == 0", r"\bdyn |fn\(")),
    8: ("files of answers and of invariants, and their lines",
        lambda: [f"{f.relative_to(ROOT / 'crates')}: {len(f.read_text().splitlines())}" for c in listed() for f in sorted((ROOT / "crates" / c / "proofs").rglob("*.antt")) if f.name in ("Answers.antt", "Invariants.antt")]),
}


def main(args):
    verbose = "-v" in args
    chosen = [int(a) for a in args if a.isdigit()] or list(POINTS)
    for point in chosen:
        title, places = POINTS[point]
        lines = places()
        print(f"{point}. {title}: {len(lines)}")
        for line in lines if verbose else []:
            print(f"     {line}")


main(sys.argv[1:])
