#!/usr/bin/env python3
"""Brings this repository's own definitions and lemmas to the spelling of today's Rattle, once, after port.py.

usage: tools/respell.py [--list]      at the top; --list prints the names, old and new, and writes nothing

A definition, a field or a constructor in lower camel case (`dateOk`) becomes snake case (`date_ok`). In a lemma's name a dash joins
two names (`length-date`) and stays; before or after any other word it becomes an underscore (`date-sound`, `date_sound`). A lemma that
would get the name of a definition or of another lemma gets `_lem`. Names of src/, strings, inputs and outputs stay; in pages only what stands
between backquotes is turned. It stops where two names would fall together.
"""
import glob
import os
import re
import sys

# Words of the library that lemmas join by a dash.
STD = set("length append take drop map digits set sets get_or add mul div mod pow sub suc cons slice min max".split())
WORD = re.compile(r"[A-Za-z][\w'₀-₉]*(?:-[\w'₀-₉]+)*")
CAMEL = re.compile(r"^[a-z][\w']*[a-z0-9'][A-Z]")


def read(p):
    with open(p, encoding="utf-8") as f:
        return f.read()


def snake(n):
    n = re.sub(r"([a-z0-9'])([A-Z])", lambda m: m[1] + "_" + m[2].lower(), n)
    return n


def without_comments(t):
    return "\n".join(l.split("--")[0] if l.lstrip().startswith("--") or " -- " in l else l for l in t.split("\n"))


def names():
    """Definitions and members of specs/ and proofs/, and lemmas of proofs/ that are no function's proof."""
    defs, lemmas, members = {}, {}, {}
    for p in sorted(glob.glob("crates/*/specs/**/*.antt", recursive=True) + glob.glob("crates/*/proofs/**/*.antt", recursive=True)):
        t = without_comments(read(p))
        own = os.path.basename(p) == "Proof.antt"
        for m in re.finditer(r"(?m)^((?:(?:pub|abbrev|unfoldable)\s+)*)(data\s+|record\s+)?([^\s(){}:;.,\"=]+)[^\n]*?\s:(?=\s)", t):
            kind, n = m[1] + (m[2] or ""), m[3]
            if n in ("use", "mod", "pub", "where", "mutual", "let", "in", "elim", "--"):
                continue
            if own and not CAMEL.match(n):
                continue
            (defs if re.search("abbrev|unfoldable|data|record", kind) else lemmas).setdefault(n, p)
        if not own:
            for m in re.finditer(r"(?m)^\s+(?:pub\s+)?([a-z][\w'\-]*)\s*:(?=\s)", t):
                members.setdefault(m[1], p)
            for m in WORD.finditer(re.sub(r'"[^"\n]*"', "", t)):
                if CAMEL.match(m[0]) and "-" not in m[0]:
                    members.setdefault(m[0], p)
    return defs, lemmas, members


def of_the_library():
    """Names that some file imports from the toolchain's library: they are not ours to turn."""
    own = {os.path.basename(p) for p in glob.glob("crates/*")}
    out = set()
    for p in glob.glob("crates/*/specs/**/*.antt", recursive=True) + glob.glob("crates/*/proofs/**/*.antt", recursive=True):
        for module, items in re.findall(r"use (\S+)\.\{([^}]*)\}", read(p)):
            parts = module.split(".")
            if parts[0] != "Rattle" or parts[1] not in own:
                out |= {i.split(" as ")[0].strip() for i in items.split(",")}
    return out


def source_fields():
    """Fields, parameters and constants of src/: a clause reads these names as they stand there."""
    out = set()
    for p in glob.glob("crates/*/src/*.rt"):
        t = re.sub(r"//[^\n]*", "", read(p))
        out |= set(re.findall(r"\b([a-z_]\w*)\s*:\s*(?!:)", t))
    return out


def joined(parts, known):
    """The parts with a dash between names where they are names all through, at least two; else with underscores alone."""
    for k in range(len(parts) - 1, 0, -1):
        head = "_".join(parts[:k])
        if head in known:
            rest = "_".join(parts[k:])
            if rest in known:
                return head + "-" + rest
    return "_".join(parts)


def renames():
    defs, lemmas, members = names()
    known = {snake(n) for n in defs} | STD
    new, taken, theirs = {}, {}, of_the_library()
    for n in list(defs) + list(members) + [l for l in lemmas if "-" not in l]:
        if CAMEL.match(n) and "-" not in n:
            new[n] = snake(n)
    for n in list(defs) + list(members) + list(lemmas):
        if n not in new and "-" not in n:
            taken.setdefault(n, n)
    for n in list(new):
        other = taken.get(new[n])
        if other and other not in defs:
            new[other] = other + "_lem"
            taken[new[other]] = other
        elif other:
            sys.exit(f"respell: {n} and {other} fall together at {new[n]}")
        taken[new[n]] = n
    # a theorem that a crate hands on cannot have the name of a function
    functions = {(p.split("/")[1], f) for p in glob.glob("crates/*/src/*.rt") for f in re.findall(r"\bfn (\w+)", read(p))}
    for p in glob.glob("crates/*/proofs/Lib.antt"):
        for items in re.findall(r"(?m)^pub use \S+\.\{([^}]*)\}", read(p)):
            for n in (i.strip() for i in items.split(",")):
                if n in lemmas and (lemmas[n].split("/")[1], n) in functions:
                    new[n] = n + "_lem"
                    taken[new[n]] = n
    # lemmas, and members of records and modules
    for n in sorted(set(lemmas) | set(members)):
        if "-" not in n or n.startswith("-") or n in theirs:
            continue
        text = joined([snake(q) for q in n.split("-")], known)
        if text != n:
            if text in taken:
                text += "_lem"
            if text in taken:
                sys.exit(f"respell: {n} and {taken[text]} fall together at {text}")
            new[n] = text
            taken[text] = n
    return new


def turn(text, new, source=False, proof=False, page=False):
    """In a file of src/, and in a page, only what no function can be called is turned; in a function's proof no step (`.f-requires`) is."""

    def one(m):
        n = m[0]
        before = text[m.start() - 1] if m.start() else " "
        if (source or page) and "-" not in n and not CAMEL.match(n):
            return n
        if proof and before == "." and "-" in n:
            return n
        if before in "'·-+₀" and "-" in n:
            return n
        return new.get(n, n)

    return WORD.sub(one, text)


def main(argv):
    new = renames()
    if argv == ["--list"]:
        fields = source_fields()
        for n in sorted(new):
            print(n, new[n], "(a name of src/ too)" if new[n] in fields else "")
        return 0
    for p in sorted(glob.glob("crates/*/**/*", recursive=True)):
        if p.endswith((".antt", ".rt", ".edit")) and "/out/" not in p:
            t = read(p)
            u = turn(t, new, p.endswith(".rt"), p.endswith("Proof.antt"))
            if u != t:
                with open(p, "w", encoding="utf-8") as f:
                    f.write(u)
    for p in ["README.md", "tools/picture"] + sorted(glob.glob("docs/*.md")) + sorted(glob.glob("oracle/**/*.md", recursive=True)):
        t = read(p)
        u = re.sub(r"`[^`\n]*`", lambda m: turn(m[0], new, page=True), t) if p.endswith(".md") else t
        if u != t:
            with open(p, "w", encoding="utf-8") as f:
                f.write(u)
    print(f"respell: {len(new)} names")
    return 0


if __name__ == "__main__":
    sys.exit(main(sys.argv[1:]))
