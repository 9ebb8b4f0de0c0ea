#!/usr/bin/env python3
"""Spells this repository's own antt names in snake case, once: a name of specs/ or proofs/ that joins words by dashes gets underscores.

usage: tools/respell.py            in a checkout in which port.py has just run

A name counts as the repository's own where specs/ or a lemma file of proofs/ declares it, or binds it; a name that a file imports from
a library stays in that file. Rust's names, labels that Rattle makes, strings, inputs and outputs stay. In pages (.md) names in backquotes
follow. No two names fall together: a name so spelled is at most that of the Rust function that it says something of.
"""

import os
import re
import sys

NAME = r"[^\s(){}\[\].;,@\"«»|]+"
WORDS = re.compile(r"[A-Za-z_Α-ωℕℤ][^\s-]*(?:-[^\s-]+)+'*")
USE = re.compile(r"(?m)^[ \t]*(?:ghost )?(?:pub )?use ([^\s{;]+?)\.?(?:\{([^}]*)\})?(?: as ([^\s;]+))?;?[ \t]*$")
TOKEN = re.compile(NAME)
DECLARED = re.compile(r"(?m)^ *(?:(?:pub|abbrev|unfoldable) )*(\w+)(?: \{[^{}\n]*\})* :")

# words of English that are names too: comments keep them
ENGLISH = {"well-formed"}
COMMENT = {".rt": "//", ".antt": "-- ", ".edit": "#"}


def texts():
    for folder, dirs, files in os.walk("crates"):
        dirs[:] = sorted(d for d in dirs if d != "out")
        for f in sorted(files):
            if f.endswith((".antt", ".rt", ".edit")):
                yield os.path.join(folder, f)


def read(p):
    with open(p, encoding="utf-8") as f:
        return f.read()


def of_library(path):
    return not path.startswith("Rattle.") or re.match(r"Rattle\.(std|io|libc|core)\b", path)


def library_names(t):
    names = set()
    for m in USE.finditer(t):
        if m[2] and of_library(m[1]):
            for n in m[2].split(","):
                names.update(x.strip() for x in n.split(" as "))
    return names


def uncommented(t):
    return re.sub(r"--[ -].*|--$", "", t, flags=re.M)


def own_names():
    """What specs/ and the lemma files of proofs/ declare or bind."""
    names = set()
    for p in texts():
        if not p.endswith(".antt") or p.endswith("/Proof.antt"):
            continue
        t = read(p)
        lib = library_names(t)
        for line in uncommented(t).split("\n"):
            if re.match(r"\s*(pub )?use ", line):
                continue
            for m in TOKEN.finditer(line):
                w = m[0]
                if "-" in w and WORDS.fullmatch(w) and w not in lib:
                    names.add(w)
    return names


def turn_line(line, names, comment):
    """A line with the names spelled anew; behind the sign of a comment words of English stay."""
    at = line.find(comment) if comment else -1
    at = len(line) if at < 0 else at

    def word(m):
        w = m[0]
        bare = w.strip("`'")
        if bare not in names or (m.start() > at and bare in ENGLISH):
            return w
        return w.replace(bare, bare.replace("-", "_"))

    return TOKEN.sub(word, line)


def turn(p, own, turned):
    t = read(p)
    kind = os.path.splitext(p)[1]
    names = own - library_names(t)
    if kind == ".md":
        names = names | turned
        new = re.sub(r"`[^`\n]+`", lambda m: turn_line(m[0], names, None), t)
    else:
        lines = t.split("\n")
        new = "\n".join(l if kind == ".rt" and '"' in l else turn_line(l, names, COMMENT[kind]) for l in lines)
        if kind == ".edit":
            new = new.replace("\u2032", "'")
    if new == t:
        return False
    with open(p, "w", encoding="utf-8") as f:
        f.write(new)
    return True


def pages():
    for folder, dirs, files in os.walk("."):
        dirs[:] = sorted(d for d in dirs if d not in (".git", "out", "target"))
        yield from (os.path.join(folder, f) for f in sorted(files) if f.endswith(".md"))


def main():
    own = own_names()
    met = {n.replace("-", "_") for n in own}
    if len(met) < len(own):
        raise SystemExit("respell: names fall together")
    # what port.py itself spelled anew, which pages still write with dashes
    turned = {n.replace("_", "-") for p in texts() if p.endswith(".antt") for n in DECLARED.findall(read(p)) if "_" in n}
    n = sum(turn(p, own, turned) for p in [*texts(), *pages()])
    print(f"respell: {len(own)} names in {n} files")


main()
