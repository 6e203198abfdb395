#!/usr/bin/env python3
"""Brings the names of this repository's own definitions and lemmas to snake case, as 'setOf' to 'set_of' and 'hull-once' to 'hull_once'.

usage: tools/snake_names.py [--check] [REPOSITORY]

What turns: a name in small letters that an .antt file of specs/ or proofs/ declares, as a definition, a lemma, a field or a constructor. It turns in the
.antt files, in the clauses of the .rt files and in the must-fail edits; in comments and pages where it has a hump or stands between backquotes. A name that a file has
from a library stays there. Names of Rust code have neither dash nor hump, so that they stay; types and modules stay in camel case. Where a lemma would get a definition's name, '_lem' is
added to it. --check writes nothing. Names that would fall together all the same are shown, and stop it. Last, every crate is laid out by rt fmt.
"""

import os
import re
import subprocess
import sys

WORD = re.compile(r"[^\s(){}.;,@\"«»`\[\]|:]+")
NAME = r"[a-z][^\s(){}.;,@\"«»:]*"
DECLARED = re.compile(rf"^\s*(?:(?:pub|abbrev|unfoldable|private|opaque|instance)\s+)*((?:{NAME}\s+)+):(?:\s|$)")
USE = re.compile(r"^\s*(?:ghost\s+)?(?:pub\s+)?use\s+([^\s{};]+?)(?:\.\{([^}]*)\})?(?:\s+as\s+\S+)?\s*;?\s*$", re.M)
COMMENT = {".antt": re.compile(r"(?<![^\s(){}.;,@\"«»])--.*$"), ".rt": re.compile(r"//.*$"), ".edit": re.compile(r"^(?!old:|new:|file:).*$|//.*$"), ".md": re.compile(r"^.*$")}
KEYWORDS = {"use", "pub", "abbrev", "unfoldable", "module", "where", "let", "in", "data", "record", "unfolding", "field", "rw", "of", "mod", "syntax"}
# Lemmas that had a library's spelling, so that they are in snake case already: they too give way to a definition.
GIVE_WAY = {"above_zero", "at_zero", "goes_on", "in_order", "nai", "part_end", "says_none", "second_empty"}
# Names that Rattle makes in the proof of a function.
MADE = re.compile(r"(returns|loop|if|call)-?[0-9a-z]*$|.*-(requires|spec|decreases)(-[0-9]+)?$")


def snake(name):
    name = re.sub("Na[NI]|^naI", lambda m: m[0][:2] + m[0][2].lower(), name)
    name = re.sub(r"(?<=[a-z0-9])([A-Z])", lambda m: "_" + m[1].lower(), name)
    return re.sub("[A-Z]", lambda m: m[0].lower(), re.sub(r"(?<=[^\W_]|[₀-₉¹⁻'])-(?=\w)", "_", name))


def files(root):
    said = subprocess.run(["git", "ls-files"], cwd=root, capture_output=True, text=True, check=True).stdout
    for path in said.splitlines():
        if path.startswith("crates/") and path.endswith((".antt", ".rt", ".edit")) or path.endswith(".md") and not path.startswith("docs/PORT"):
            yield path


def kind(path):
    return os.path.splitext(path)[1]


def declared(text):
    names = set()
    for line in text.splitlines():
        m = DECLARED.match(COMMENT[".antt"].sub("", line))
        if m and not line.strip().startswith(("use ", "pub use ")):
            names |= set(m[1].split())
    return {n for n in names - KEYWORDS if not MADE.match(n)}


def brought(text, crates):
    """The names that a file has from libraries."""
    theirs = set()
    for path, items in USE.findall(text):
        steps = path.split(".")
        if not (len(steps) > 1 and steps[0] == "Rattle" and steps[1] in crates):
            theirs |= {item.split(" as ")[0].strip() for item in items.split(",") if item.strip()}
    return theirs


def turned(line, path, rows):
    """A line with its names turned: all in code; in a comment those with a hump, and those between backquotes."""
    m = COMMENT[kind(path)].search(line)
    at = m.start() if m else len(line)

    def word(m):
        return rows.get(m[0], m[0])

    code = WORD.sub(word, line[:at])
    rest = line[at:].split("`")
    for i, part in enumerate(rest):
        rest[i] = WORD.sub(lambda m: word(m) if i % 2 or "-" not in m[0] else m[0], part)
    return code + "`".join(rest)


def main(argv):
    check = "--check" in argv
    argv = [a for a in argv if a != "--check"]
    root = argv[0] if argv else "."
    crates = {c for c in os.listdir(os.path.join(root, "crates")) if os.path.isdir(os.path.join(root, "crates", c, "src"))}
    texts = {}
    for p in files(root):
        with open(os.path.join(root, p), encoding="utf-8") as f:
            texts[p] = f.read()
    names = set()
    for p, t in texts.items():
        if kind(p) == ".antt" and not p.endswith("/Proof.antt"):
            names |= declared(t)
    table = {n: snake(n) for n in names if snake(n) != n}
    # A lemma gives way to a definition of its name, in every file.
    for o in sorted(table):
        n = table[o]
        rivals = [q for q in names if q != o and table.get(q, q) == n]
        if rivals and "-" in o:
            table[o] = n + "_lem"
    table |= {o: o + "_lem" for o in GIVE_WAY & names}
    bad = 0
    changed = {}
    for p, t in texts.items():
        theirs = brought(t, crates) if kind(p) in (".antt", ".rt") else set()
        words = set(WORD.findall(t))
        rows = {o: n for o, n in table.items() if o in words and o not in theirs}
        if kind(p) in (".md", ".edit"):
            # These pages still have the older spelling of names that turned before.
            rows |= {o: table.get(snake(o), snake(o)) for o in words if "-" in o and o not in rows and snake(o) in names}
        new = {}
        for o, n in rows.items():
            if kind(p) == ".antt" and (n in words and n in names and n not in GIVE_WAY or n in theirs):
                print(f"fall together: {p}: {o} would be {n}, which stands there")
                bad += 1
            if n in new:
                print(f"fall together: {p}: {o} and {new[n]} would both be {n}")
                bad += 1
            new[n] = o
        for o in table:
            if o in words and o in theirs:
                print(f"stays: {p}: {o}, a library's")
        out = "\n".join(turned(line, p, rows) for line in t.split("\n"))
        if out != t:
            changed[p] = out
    if check:
        for o, n in sorted(table.items()):
            print(f"{o}\t{n}")
    print(f"{len(table)} names, {len(changed)} files, {bad} that fall together")
    if bad or check:
        return int(bool(bad))
    for p, out in changed.items():
        with open(os.path.join(root, p), "w", encoding="utf-8") as f:
            f.write(out)
    for c in sorted(crates):
        subprocess.run(["rt", "fmt"], cwd=os.path.join(root, "crates", c), check=True, stdout=subprocess.DEVNULL)
    return 0


if __name__ == "__main__":
    raise SystemExit(main(sys.argv[1:]))
