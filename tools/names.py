#!/usr/bin/env python3
"""Spelled the repository's own definitions and lemmas as Rattle does: words in snake case.

Its work is done. It rewrites files in place, so it asks for --rewrite.

usage: python3 tools/names.py --rewrite     at the top of the repository, once, on what port.py left

A name of specs/ or proofs/ that begins with a small letter and has a capital or a dash in it gets
underscores: `bankAddress` and `bank-address` become `bank_address`. Where two names of one file would
become one, or a lemma would get the name of a definition that stands beside it, the lemma gets `_lem`
at its end. Names that a file imports from elsewhere stay, and so do types, variants, constructors
in capitals, functions of src/, strings and numbers. It writes crates/*/src, specs, proofs, the must-fail
edits, and the names between backquotes in README.md and docs/.
"""

import glob
import os
import re
import sys

WORD = r"[^\s(){}\[\],;.:=≡→×⊎λ\"`@⟦⟧/∷+*<>≤∙&|%^^]+"
TOKEN = re.compile(r"[A-Za-z_][A-Za-z0-9_']*(?:-[A-Za-z0-9_']+)*")
DEF = re.compile(r"^( *)(?:abbrev |unfoldable )?(?:pub )?((?:[A-Za-z_][A-Za-z0-9_'-]*)(?: [A-Za-z_][A-Za-z0-9_'-]*)*)\s*(?::| [({])", re.M)
KEY = {"use", "mod", "infixl", "infixr", "where", "module", "unfolding", "let", "in", "open", "data", "record", "abbrev", "pub", "unfoldable", "ruleset", "elim", "as"}


def snake(n):
    n = n.replace("-", "_")
    return re.sub(r"(?<=[a-z0-9])([A-Z])", lambda m: "_" + m.group(1).lower(), n)


def changes(n):
    return n[0].islower() and ("-" in n or re.search(r"[a-z0-9][A-Z]", n))


def files(*patterns):
    return sorted({f for p in patterns for f in glob.glob(p, recursive=True) if os.path.isfile(f) and "/out/" not in f})


def definitions(text):
    """The names that a file defines: at the left margin, and those of its fields and constructors."""
    found = []
    members = []
    block = False
    for line in text.split("\n"):
        if line.strip().startswith("--"):
            continue
        if line and not line.startswith(" "):
            block = bool(re.match(r"(pub )?(record|data|module) ", line))
            m = re.match(r"(?:pub )?(?:record|data) ([^\s:]+)", line)
            if m:
                found.append(m.group(1))
                continue
        if block and line.startswith("  "):
            m = re.match(r"  (?:pub )?([A-Za-z_][A-Za-z0-9_' -]*?)\s*(?::|\()", line)
            if m:
                members += m.group(1).split()
            continue
        m = re.match(r"(?:abbrev |unfoldable )?(?:pub )?(?:ruleset )?([A-Za-z_][A-Za-z0-9_'-]*)\s+(?::|\{|\(|=)", line)
        if m and m.group(1) not in KEY:
            found.append(m.group(1))
    return found, members


def imports(text):
    """What a file imports from outside this repository, and the crates' own modules."""
    foreign = set()
    for m in re.finditer(r"^(?:ghost )?use ([^\s{]+?)\.?\{([^}]*)\}", text, re.M):
        names = [n.strip() for n in m.group(2).split(",")]
        if not own_path(m.group(1)):
            foreign |= {n.split(" as ")[-1] for n in names} | {n.split(" as ")[0] for n in names}
    return foreign


CRATES = []


def own_path(path):
    parts = path.split(".")
    return parts[0] == "Rattle" and len(parts) > 1 and parts[1] in CRATES


def main():
    CRATES.extend(os.listdir("crates"))
    antt = files("crates/*/specs/**/*.antt", "crates/*/proofs/**/*.antt")
    texts = {f: open(f, encoding="utf-8").read() for f in antt + files("crates/*/src/**/*.rt")}
    # A definition of specs/ goes before a lemma of proofs/ where both would have one name.
    specs, lemmas, members = {}, {}, set()
    for f in antt:
        if os.path.basename(f) in ("Proof.antt", "Lib.antt"):
            continue
        tops, inner = definitions(texts[f])
        members |= set(inner)
        for n in tops:
            (specs if "/specs/" in f else lemmas).setdefault(n, []).append(f)
    taken = {}
    for n in specs:
        taken.setdefault(snake(n) if changes(n) else n, set()).add(n)
    for n in lemmas:
        if not changes(n):
            taken.setdefault(n, set()).add(n)
    new = {}
    clash = []
    for n in specs:
        if changes(n):
            new[n] = snake(n)
            for other in sorted(taken[new[n]] - {n}):
                clash.append((n, new[n], taken[new[n]]))
                if other in lemmas and other not in specs:
                    new[other] = other + "_lem"
    for n in lemmas:
        if changes(n) and n not in new:
            to = snake(n)
            if taken.get(to, {n}) != {n}:
                clash.append((n, to, taken[to]))
                to += "_lem"
            taken.setdefault(to, set()).add(n)
            new[n] = to
    for n, to, others in clash:
        print(f"together: {n} -> {to}: {sorted(others)}, now {new[n]}" + "".join(f"\n    {o}: {f}" for o in sorted(others | {n}) for f in specs.get(o, []) + lemmas.get(o, [])))
    for n in members:
        if changes(n) and n not in new:
            new[n] = snake(n)

    def respell(text, keep):
        return TOKEN.sub(lambda m: m.group(0) if m.group(0) in keep else new.get(m.group(0), m.group(0)), text)

    n_files = 0
    for f, text in texts.items():
        keep = imports(text)
        if f.endswith(".rt"):
            out = "".join(respell(p, keep) if clause else p for clause, p in clauses(text))
        else:
            # A path to a module of another library keeps its parts.
            out = re.sub(r"^use (?!Rattle\.(?:%s)\.).*$|[^\n]*\n?" % "|".join(CRATES), lambda m: m.group(0) if m.group(0).startswith("use ") and not own_path(m.group(0)[4:].split("{")[0]) else respell(m.group(0), keep), text, flags=re.M)
        for n in sorted({new[t] for t in TOKEN.findall(text) if t in new and t not in keep} & keep):
            print(f"imported: {f}: {n}")
        if out != text:
            n_files += 1
            with open(f, "w", encoding="utf-8") as h:
                h.write(out)
    for f in files("crates/*/must-fail/*.edit"):
        text = open(f, encoding="utf-8").read()
        if "file: src/" not in text:
            out = respell(text, set())
            if out != text:
                n_files += 1
                open(f, "w", encoding="utf-8").write(out)
    for f in files("README.md", "docs/**/*.md"):
        text = open(f, encoding="utf-8").read()
        out = re.sub(r"`[^`\n]*`", lambda m: respell(m.group(0), set()), text)
        if out != text:
            n_files += 1
            open(f, "w", encoding="utf-8").write(out)
    print(f"{len(new)} names, {n_files} files")


def clauses(text):
    """The parts of a .rt file: (True, part) for ghost use lines, clauses and ghost fields, (False, part) for code."""
    at = 0
    for m in re.finditer(r"^ghost use [^;]*;|^ *(?:requires|ensures)\*?(?: \w+)? \{", text, re.M):
        if m.start() < at:
            continue
        yield False, text[at:m.start()]
        end = m.end()
        if not m.group(0).startswith("ghost"):
            depth = 1
            while depth:
                depth += {"{": 1, "}": -1}.get(text[end], 0)
                end += 1
        yield True, text[m.start():end]
        at = end
    yield False, text[at:]


if __name__ == "__main__":
    if sys.argv[1:] != ["--rewrite"]:
        sys.exit("names.py rewrites files in place, and its work is done; see its first lines")
    main()
