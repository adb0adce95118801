#!/usr/bin/env python3
"""Candidate places of older forms in src/, point by point, as DESIGN-PASS.md counts them on 26 November 2026: places.py [COMMIT] [-l], at the top of the repository

Prints how many lines of crates/*/src/*.rt a pattern finds for each point, by crate, and with -l the lines.
For twins it compares the shapes of function bodies, and for facts the clauses that stand word for word in three contracts or more.
"""
import collections, difflib, re, subprocess, sys

LINES = {
    "1 sentinels, flags, numbers for kinds": r"else \{ 0 \}|^ +0$|self\.number\(\) \{|\(&mut self.*-> bool|low: 1, high: 0|GREATEST \+ 1|, 0 past the last|else 0\.$|-> u8\b",
    "3 loops by an index": r"\bwhile .*(\bi\b|count|< )|\bfor _?\w+ in \(?\w[\w.]*\.\.|\+= 1;|\bin \(0\.\.",
    "3 searches by hand": r"^\s+return (true|false|Some\(.*\)|None);",
    "4 matches on Option or Result": r"^\s*(None|Some\(.*\)|Ok\(.*\)|Err\(.*\)) => ",
    "4 equality by cases": r"^\s*_ => (true|false),",
    "4 plain types with few derives": r"#\[derive\(Clone, Copy\)\]",
    "5 preconditions": r"^\s*requires ",
    "6 arrays of a fixed length": r"\[[\w:]+(<\w+>)?(\(\d\))?; [\w_]+\]",
    "7 traits": r"^\s*(pub(\([a-z]+\))? )?trait ",
}


def files(commit):
    if commit:
        names = subprocess.run(["git", "ls-tree", "-r", "--name-only", commit, "crates"], capture_output=True, text=True).stdout.split()
    else:
        names = subprocess.run(["git", "ls-files", "crates"], capture_output=True, text=True).stdout.split()
    for name in names:
        if re.fullmatch(r"crates/\w+/src/\w+\.rt", name):
            if commit:
                text = subprocess.run(["git", "show", f"{commit}:{name}"], capture_output=True, text=True).stdout
            else:
                text = open(name).read()
            yield name, text


def functions(text):
    """(name, shape of the body): every name and literal is one token, so that only the form is left."""
    for m in re.finditer(r"\bfn (\w+)", text):
        depth, start = 0, None
        i = m.end()
        clause = False
        while i < len(text):
            c = text[i]
            if c == "{":
                head = text[m.end():i]
                last = head.rstrip().split("\n")[-1]
                if depth == 0 and re.search(r"(requires|ensures|ghost)\b[^\n]*$", last) and not re.search(r"\}\s*$", last):
                    clause = True
                elif depth == 0:
                    start = i
                    clause = False
                depth += 1
            elif c == "}":
                depth -= 1
                if depth == 0 and not clause and start is not None:
                    break
            elif c == ";" and depth == 0:
                start = None
                break
            i += 1
        if start is None:
            continue
        body = re.sub(r"//[^\n]*", "", text[start:i])
        tokens = re.findall(r"b?\"[^\"]*\"|b'[^']*'|\w+|[^\w\s]", body)
        keep = {"match", "if", "else", "for", "while", "let", "return", "in", "mut", "Some", "None", "Ok", "Err", "true", "false"}
        yield m.group(1), [t if not re.match(r"[\w\"']", t) or t in keep else "x" for t in tokens]


def crate(name):
    return name.split("/")[1]


def main():
    listed = "-l" in sys.argv
    commit = next((a for a in sys.argv[1:] if not a.startswith("-")), None)
    sources = list(files(commit))
    for point, pattern in LINES.items():
        hits = [(n, k, l.strip()) for n, t in sources for k, l in enumerate(t.split("\n"), 1) if re.search(pattern, l)]
        by = collections.Counter(crate(n) for n, _, _ in hits)
        print(f"{point}: {len(hits)}", dict(by))
        if listed:
            for hit in hits:
                print("   ", *hit)
    bodies = [(f"{n.split('/')[1]}/{n.split('/')[-1]}:{f}", s) for n, t in sources if not crate(n).endswith("trials") for f, s in functions(t) if len(s) >= 16]
    pairs = []
    for i, (a, s) in enumerate(bodies):
        for b, t in bodies[i + 1:]:
            if abs(len(s) - len(t)) <= 0.2 * max(len(s), len(t)):
                r = difflib.SequenceMatcher(None, s, t, autojunk=False)
                if r.real_quick_ratio() > 0.9 and r.quick_ratio() > 0.9 and r.ratio() > 0.9:
                    pairs.append((a, b, round(r.ratio(), 2)))
    print(f"2 pairs of functions of one shape: {len(pairs)}")
    if listed:
        for p in pairs:
            print("   ", *p)
    clauses = collections.Counter(l.strip() for _, t in sources for l in t.split("\n") if re.match(r"\s*requires ", l))
    facts = {c: n for c, n in clauses.items() if n >= 3}
    print(f"5 facts asked in three contracts or more: {len(facts)} in {sum(facts.values())} contracts")
    if listed:
        for c, n in facts.items():
            print("   ", n, c)


main()
