#!/usr/bin/env python3
"""Lists places in src/ that a newer form of the language might say better, one point after the other.

    python3 tools/places.py [FOLDER]     counts for the repository in FOLDER (this one), and every place
    python3 tools/places.py -c [FOLDER]  the counts alone

It goes by text. A line that it prints is a place to look at; whether it stays is a reader's decision.
"""
import glob
import os
import re
import sys

args = sys.argv[1:]
counts_only = "-c" in args
args = [a for a in args if a != "-c"]
os.chdir(args[0] if args else os.path.join(os.path.dirname(os.path.abspath(__file__)), ".."))
files = {
    f: open(f).read()
    for f in sorted(glob.glob("crates/*/src/**/*.rt", recursive=True))
}
# Texts of lists and tapes in tests look like code here and there.
plain = {f: re.sub(r'b?"(?:[^"\\]|\\.)*"', lambda m: '""' + "\n" * m.group().count("\n"), t, flags=re.S) for f, t in files.items()}


def lines(pattern):
    found = []
    for f, t in plain.items():
        for n, line in enumerate(t.split("\n"), 1):
            if re.search(pattern, line) and not line.strip().startswith("//"):
                found.append(f"{f}:{n}: {line.strip()}")
    return found


def functions():
    """Each function: file, line, name, parameters, clauses, body."""
    for f, t in plain.items():
        for m in re.finditer(r"^( *)(?:pub(?:\([a-z]+\))? )?fn (\w+)(?:<[^(]*>)?\((.*?)\)[^{;]*?(?=\n|\{)", t, flags=re.M | re.S):
            end = re.compile(r"^%s\}" % m.group(1), flags=re.M).search(t, m.end())
            whole = t[m.start():end.end()] if end else ""
            start = re.search(r"^%s\{$|\{$" % m.group(1), whole, flags=re.M)
            clauses = re.findall(r"(?:requires|ensures)(?: \w+)? (\{.*\})$", whole, flags=re.M)
            body = whole
            for c in re.findall(r"^ *(?:requires|ensures).*$", whole, flags=re.M):
                body = body.replace(c, "")
            yield f, t.count("\n", 0, m.start()) + 1, m.group(2), m.group(3), clauses, body


def shape(body):
    """A function's text without names, numbers and strings."""
    body = re.sub(r"//.*", "", body)
    tokens = re.findall(r"\w+|[^\w\s]", body.partition("(")[2])
    keep = {"if", "else", "match", "for", "in", "while", "return", "let", "mut", "Ok", "Err", "Some", "None", "self"}
    out = [x if x in keep or not re.match(r"\w", x) else ("0" if x[0].isdigit() else "x") for x in tokens]
    return " ".join(out)


all_functions = list(functions())


def twins():
    groups = {}
    for f, n, name, _, _, body in all_functions:
        s = shape(body)
        if len(s.split()) >= 30:
            groups.setdefault(s, []).append(f"{f}:{n}: {name}")
    return [" = ".join(g) for g in groups.values() if len(g) > 1]


def repeated_facts():
    seen = {}
    for f, n, name, _, clauses, _ in all_functions:
        crate = f.split("/")[1]
        for c in set(clauses):
            seen.setdefault((crate, c), []).append(name)
    return [f"{crate}: {c} in {', '.join(names)}" for (crate, c), names in seen.items() if len(names) >= 3]


def travelling():
    seen = {}
    for f, n, name, params, _, _ in all_functions:
        crate = f.split("/")[1]
        if crate.endswith("tests") or crate in ("acceptance", "linking_samples"):
            continue
        ps = [re.sub(r"\s+", " ", p).strip() for p in re.split(r",(?![^<\[(]*[>\])])", params)]
        ps = sorted(p for p in ps if ":" in p and not p.startswith("rt:"))
        for i in range(len(ps)):
            for j in range(i + 1, len(ps)):
                seen.setdefault((crate, ps[i], ps[j]), []).append(name)
    return [f"{c}: ({a}, {b}) in {', '.join(ns)}" for (c, a, b), ns in seen.items() if len(ns) >= 3]


def answers():
    found = []
    for f in sorted(glob.glob("crates/*/proofs/**/Answers.antt", recursive=True)):
        found += [f"{f}: {m}" for m in re.findall(r"^pub ([^\s:]+) : goal\.", open(f).read(), flags=re.M)]
    return found


points = [
    ("1a cases for nothing, results of one's own", lambda: lines(r"^ +(Nothing|Unplaced|Flat|Plain|Keep|Replace|Blank|Refused\(.*\)),?$")),
    ("1b options and results handed on by hand", lambda: lines(r"Err\(\w+\) => Err\(|Some\((e|place|line)\) => (Some|Err)\(|None => (Err|None|Ok|Some|0|false)\b|else \{ 0 \}|Err\(_\) => (None|self)")),
    ("1c numbers and bools for refusals", lambda: lines(r"fn (load|is_sound|word_len|byte_at|run|spread|entry_of)\b.*(-> (bool|u8|usize|\(|Option<Option)|slow: u16)")),
    ("2 functions of the same shape", twins),
    ("3 loops over an index", lambda: lines(r"^ *(while .*(<|>) |for \w+ in [^{]*\.\.)")),
    ("4 conversion and printing by hand", lambda: lines(r"^impl(<.*>)? From<|fn (name|letter|\w+_name|\w+_words|words_of|ended|part_of|ending_of)\b")),
    ("5a facts in three contracts or more", repeated_facts),
    ("5b parameters that travel together", travelling),
    ("6 arrays in signatures and fields", lambda: lines(r"(\w+: |-> |mut )(&('\w+ )?(mut )?)?\[[^];=]+; ?[A-Z0-9]+\]")),
    ("7 functions and steps as values", lambda: lines(r"\bFn(Once|Mut)?\(|\bdyn |: fn\(")),
    ("8 answers in proofs/", answers),
]
for title, find in points:
    found = find()
    print(f"{title}: {len(found)}")
    if not counts_only:
        for place in found:
            print("    " + place)
