#!/usr/bin/env python3
"""Spells the repository's own definitions and lemmas as the kit spells its own: words in snake case.

usage: tools/respell.py          at the top of the repository, once, after the kit's port.py and before its work is committed

A name that crates/*/specs or crates/*/proofs declares gets underscores for its hyphens and humps (tieForce, tie-force: tie_force); a symbol of the
papers at its end keeps its capital (exactNw: exact_Nw). Functions, types, labels of goals and names behind a goal's context keep theirs.
Files of specs/ and proofs/, clauses and comments of src/, must-fail edits, README.md and docs/ are rewritten in place. It says which names fall together.
"""

import collections
import glob
import os
import re
import subprocess
import sys
import tempfile

TOKEN = re.compile(r'"(?:[^"\\\n]|\\.)*"|[^\s(){}.;,@"\x60]+')
DECLARED = re.compile(r"\s*(?:(?:abbrev|unfoldable|pub|opaque|private)\s+)*(?!let\b)([^\s(){}.;,@\"]+)(?:\s*[({][^:]*[)}])*\s+:\s")
SYMBOLS = {"N", "Nw", "Mw", "Z", "J", "K", "S", "T"}
# What the prover names in an author's file, and a module's own words.
MADE = re.compile(r"(invariant|decreases|Inv|μ|Need)-")
# A head behind which names are the prover's: a goal's context, the module of goals, the older tie.
HEADS = {"goal", "tie", "c", "d", "w", "l"}


# Names that would fall together with a definition's.
APART = {
    "bad-row": "row_bad",
    "book-written": "book_written_lem",
    "count-in": "count_in_lem",
    "first-bad": "first_bad_lem",
    "good-at": "good_at_lem",
    "height-shown": "height_shown_lem",
    "left_in": "left_in_lem",
    "line-end": "line_end_lem",
    "read-refusal": "read_refusal_lem",
    "report-in": "report_in_lem",
    "row-at": "row_at_lem",
    "rows-read": "rows_read_lem",
    "verdict-shown": "verdict_shown_lem",
}


def snake(name):
    if name in APART:
        return APART[name]
    if name[0].isupper() or name[0] == "μ":
        return name.replace("-", "_")
    parts = re.sub(r"(?<=[a-z0-9])([A-Z])", r"-\1", name).split("-")
    words = [p if p in SYMBOLS or i == 0 else p[:1].lower() + p[1:] for i, p in enumerate(parts)]
    return "_".join(words)


def read(path):
    with open(path, encoding="utf-8", newline="") as f:
        return f.read()


def files(*patterns):
    return sorted(p for pattern in patterns for p in glob.glob(pattern, recursive=True) if "/out/" not in p)


def declared(root="."):
    """Each name that a file of specs/ or proofs/ declares, or brings in as another, with the files."""
    names = collections.defaultdict(set)
    for path in files(f"{root}/crates/*/specs/**/*.antt", f"{root}/crates/*/proofs/**/*.antt"):
        for line in read(path).split("\n"):
            if line.lstrip().startswith("--"):
                continue
            found = DECLARED.match(line)
            for name in ([found[1]] if found else []) + re.findall(r" as ([a-z]+[A-Z][A-Za-z]*)", line):
                names[name].add(path)
    return names


def turned_before(names):
    """The names of the last commit that the kit's scripts have turned already."""
    with tempfile.TemporaryDirectory() as top:
        subprocess.run(f"git archive HEAD crates | tar -x -C {top}", shell=True, check=True)
        return {n: snake(n) for n in declared(top) if n not in names and snake(n) != n and snake(n) in names}


def imported(text):
    """The names that a text imports from elsewhere than this repository's crates."""
    own = set(os.listdir("crates"))
    out = set()
    for module, items in re.findall(r"(?m)^\s*(?:ghost )?use ([^\s{]+?)\.?\{([^}]*)\}", text):
        steps = module.split(".")
        if steps[0] != "Rattle" or len(steps) < 2 or steps[1] not in own:
            out |= {i.strip() for i in items.split(",")}
    return out


def head_of(text, start):
    """The first name of the dotted chain that a token ends, or ''."""
    at = start
    while at and text[at - 1] == "." and at > 1 and not text[at - 2].isspace():
        at -= 1
        while at and re.match(r'[^\s(){}.;,@"\x60]', text[at - 1]):
            at -= 1
    return TOKEN.match(text, at)[0] if at < start else ""


def turned(text, table, skip=frozenset(), heads=HEADS):
    def one(m):
        name = m[0]
        if name not in table or name in skip or head_of(text, m.start()) in heads:
            return name
        return table[name]

    return TOKEN.sub(one, text)


def turned_comment(text, table):
    """In prose a hyphen is no name's, so there only humps turn, and what stands between backticks."""
    text = re.sub(r"\x60[^\x60\n]*\x60", lambda m: turned(m[0], table), text)
    return TOKEN.sub(lambda m: table[m[0]] if m[0] in table and re.search("[a-z0-9][A-Z]", m[0]) else m[0], text)


def turned_antt(text, table):
    skip = imported(text)
    lines = []
    for line in text.split("\n"):
        code, dash, comment = re.match(r"(.*?)((?:^|(?<=\s))--(?=\s|$))?((?<=--).*)?$", line).groups(default="")
        lines.append(turned(code, table, skip) + dash + turned_comment(comment, table))
    return "\n".join(lines)


def turned_rt(text, table):
    # No name of the code has a hump and a small first letter, so a clause's names are found by their spelling.
    return re.sub(r"(?<![\w-])[A-Za-z]\w*(?:-\w+)*(?![\w-])", lambda m: table.get(m[0], m[0]) if re.search("[a-z0-9]-?[A-Z]|-", m[0]) and " " not in m[0] else m[0], text)


def main():
    if len(sys.argv) > 1:
        print(__doc__)
        return 2
    names = declared()
    table = {n: snake(n) for n in names if snake(n) != n and not MADE.match(n)}
    met = collections.defaultdict(set)
    for n in names:
        met[table.get(n, n)].add(n)
    for new, olds in sorted(met.items()):
        if len(olds) > 1:
            print(f"look: {', '.join(sorted(olds))} are all {new} now: " + " ".join(sorted(f"{o}@{p}" for o in olds for p in names[o]))[:300])
    outside = turned_before(names) | table
    changed = 0
    for path in files("crates/*/specs/**/*.antt", "crates/*/proofs/**/*.antt", "crates/*/src/**/*.rt", "crates/*/must-fail/*.edit", "README.md", "docs/**/*.md"):
        text = read(path)
        if path.endswith(".antt"):
            new = turned_antt(text, table)
            words = set(TOKEN.findall(text))
            for n in sorted(words & set(table)):
                if table[n] in words:
                    print(f"look: {path}: {n} meets {table[n]}")
        elif path.endswith(".md"):
            new = turned_comment(text, outside)
        elif path.endswith(".rt"):
            new = turned_rt(text, table)
        else:
            new = "".join(turned(l, outside) if l.startswith(("old:", "new:")) else turned_comment(l, outside) for l in text.splitlines(True))
        if new != text:
            changed += 1
            with open(path, "w", encoding="utf-8", newline="") as f:
                f.write(new)
    print(f"respell: {len(table)} names, {changed} files")
    return 0


if __name__ == "__main__":
    raise SystemExit(main())
