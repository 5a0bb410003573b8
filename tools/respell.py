#!/usr/bin/env python3
"""Brings this repository's own definitions, fields and lemmas to today's spelling: words in snake case, a dash only before a symbol.

usage: python3 tools/respell.py [TOP]        once, right after port.py, at the top of the repository (or of the folder TOP)

A name is turned where crates/*/specs or crates/*/proofs declare it, and only where no library name of that spelling is meant. Functions of src/, names of C,
strings, inputs and outputs keep their names. A name whose new spelling another one has already is left and printed. The module Contracts of
light_sheet_demands becomes CallRecords, since Rattle makes a module `contracts` there.
"""

import glob
import os
import re
import sys

TOP = sys.argv[1] if len(sys.argv) > 1 else "."
TOKEN = re.compile(r"[^\s(){}\[\],;.@\"⌜⌝«»|`!?&:=]+")
HEAD = re.compile(r"^( *)(?:(?:pattern|unfoldable|abbrev|pub|axiom)\s+)*(record |data )?([^\s:(){}.,;\"]+)((?:\s+[({][^(){}]*(?:\([^()]*\)[^(){}]*)*[)}])*)\s*:(?!=)")
SYMBOL = re.compile(r"[A-Za-z0-9_'ₑᵢⱼ]")
OWN = ("Rattle.",)
LIBRARIES = ("Rattle.std", "Rattle.core", "Rattle.io", "Rattle.libc", "Rattle.os")


def new_name(n):
    """The spelling of today of a name of this repository."""
    if n[0].isupper() and "-" not in n or "◌" in n:
        return n
    parts = n.split("-")
    out = parts[0]
    for p in parts[1:]:
        # a dash stays before a symbol, as in nat_abs-*, and behind nothing
        out += ("_" if p and SYMBOL.match(p[0]) and out else "-") + p
    words = []
    for w in out.split("_"):
        if w and w[0].islower():
            w = re.sub(r"(?<=[a-z0-9])(?=[A-Z])|(?<=[A-Z])(?=[A-Z][a-z])", "_", w)
            w = "".join(c.lower() if c.isascii() else c for c in w)
        elif w and len(w) == 1 and w.isupper() and w.isascii():
            w = w.lower()
        words.append(w)
    return "_".join(words)


def files(*patterns):
    for p in patterns:
        yield from sorted(glob.glob(os.path.join(TOP, p), recursive=True))


def crate_files():
    for f in files("crates/*/specs/**/*.antt", "crates/*/proofs/**/*.antt", "crates/*/src/**/*.rt"):
        if "/out/" not in f:
            yield f


def read(f):
    with open(f, encoding="utf-8") as h:
        return h.read()


def main():
    own, private = {}, {}
    functions = {n for f in crate_files() if f.endswith(".rt") for n in re.findall(r"\bfn (\w+)", read(f))}
    for f in crate_files():
        if f.endswith(".rt"):
            continue
        walk = os.path.basename(f) in ("Proof.antt", "Answers.antt", "Invariants.antt")
        for line in read(f).splitlines():
            m = HEAD.match(line)
            if not m or line.lstrip().startswith(("--", "use ")):
                continue
            n = m.group(3)
            if walk:
                # a part of a walk is named as the goal that it proves
                if not re.search(r":\s*tie\.|: \{M : Type 1\}", line):
                    private.setdefault(f, set()).add(n)
            else:
                own.setdefault(n, set()).add(f)
    turned = {n: new_name(n) for n in own if new_name(n) != n}
    # Names that fall together: the definition or field keeps the plain name, and the lemma about it ends in _lem.
    taken = {}
    for n, t in turned.items():
        taken.setdefault(t, {t} if t in own else set()).add(n)
    for t, names in sorted(taken.items()):
        capitals = [n for n in names if re.search(r"[a-z][A-Z]", n) and "-" not in n]
        keeps = capitals[0] if capitals else t
        if len(names) > 1 and (len(capitals) > 1 or keeps not in names):
            print("together:", t, "of", sorted(names))
        for n in names - {keeps} - functions:
            if len(names) > 1:
                turned[n] = t + "_lem"
    changed = 0
    for f in crate_files():
        changed += turn_file(f, turned, private.get(f, set()), own)
    for f in files("README.md", "docs/**/*.md", "tests/*.txt", "crates/*/must-fail/*.edit", "rust/README.md", "bench/README.md"):
        changed += turn_page(f, turned)
    old = os.path.join(TOP, "crates/light_sheet_demands/specs/Contracts.antt")
    if os.path.exists(old):
        os.rename(old, os.path.join(os.path.dirname(old), "CallRecords.antt"))
        for f in list(crate_files()) + list(files("crates/*/must-fail/*.edit", "README.md", "docs/**/*.md", "tests/*", "tools/*")):
            if os.path.isfile(f) and os.path.basename(f) != "respell.py":
                t = read(f)
                u = t.replace("light_sheet_demands.specs.Contracts", "light_sheet_demands.specs.CallRecords").replace("specs/Contracts.antt", "specs/CallRecords.antt")
                u = u.replace("light_sheet_demands:Contracts", "light_sheet_demands:CallRecords").replace("`Contracts.antt`", "`CallRecords.antt`")
                if f.endswith("light_sheet_demands/specs/Lib.antt"):
                    u = re.sub(r"\bpub mod Contracts\b", "pub mod CallRecords", u)
                if u != t:
                    with open(f, "w", encoding="utf-8") as h:
                        h.write(u)
    print("files:", changed, "names:", len(turned))


def imports(text):
    """The names that a file takes from libraries, and so not from this repository."""
    out = set()
    for m in re.finditer(r"^\s*(?:ghost )?use ([\w.'-]+)\.\{([^}]*)\}", text, re.M):
        path = m.group(1)
        if path.startswith(OWN) and not path.startswith(LIBRARIES):
            continue
        out |= {x.strip().split(" ")[0] for x in m.group(2).split(",")}
    return out


def turn_file(f, turned, private, own):
    t = read(f)
    lib = imports(t)
    here = {n: new_name(n) for n in private if new_name(n) != n}
    present = set(TOKEN.findall(t))
    lines = []
    for line in t.split("\n"):
        code, mark, comment = split_comment(line, f)
        lines.append(turn_code(code, turned, here, lib, present, f) + mark + turn_words(comment, turned))
    u = "\n".join(lines)
    if u != t:
        with open(f, "w", encoding="utf-8") as h:
            h.write(u)
    return u != t


def split_comment(line, f):
    if f.endswith(".rt"):
        m = re.search(r"(?<!:)//", line)
        if m and '"' not in line[: m.start()]:
            return line[: m.start()], "", line[m.start():]
        return line, "", ""
    m = re.search(r"(?:^|(?<=\s))--(?=\s|-|$)", line)
    if m:
        return line[: m.start()], "", line[m.start():]
    return line, "", ""


REPORTED = set()


def turn_code(code, turned, here, lib, present, f):
    if f.endswith(".rt") and '"' in code:
        return code

    def one(m):
        n = m.group(0)
        before = code[m.start() - 1] if m.start() else " "
        new = here.get(n) or turned.get(n)
        if new is None or n in lib:
            return n
        # behind a dot a name with a dash is one that Rattle makes
        if before == "." and "-" in n:
            return n
        if new in lib:
            new += "_lem"
        if new in present and turned.get(new, new) == new and (f, n) not in REPORTED:
            REPORTED.add((f, n))
            print("here together:", n, new, os.path.relpath(f, TOP))
        return new

    return TOKEN.sub(one, code)


def turn_words(comment, turned):
    """In a comment a name stands between backticks, or is told from a word by its capitals."""
    comment = re.sub(r"`[^`]*`", lambda q: TOKEN.sub(lambda m: turned.get(m.group(0), m.group(0)), q.group(0)), comment)
    return TOKEN.sub(lambda m: turned[m.group(0)] if m.group(0) in turned and re.search(r"[a-z][A-Z]", m.group(0)) else m.group(0), comment)


def turn_page(f, turned):
    t = read(f)
    if f.endswith(".edit"):
        u = "\n".join(
            turn_words(x, turned) if x.startswith("#") else re.match(r"(\w+: ?)?", x).group(0) + TOKEN.sub(lambda m: turned.get(m.group(0), m.group(0)), x[len(re.match(r"(\w+: ?)?", x).group(0)):]) if x.startswith(("old:", "new:")) else x
            for x in t.split("\n")
        )
    elif f.endswith(".txt"):
        u = TOKEN.sub(lambda m: turned[m.group(0)] if m.group(0) in turned and re.search(r"[a-z][A-Z]", m.group(0)) else m.group(0), t)
    else:
        u = turn_words(t, turned)
    if u != t:
        with open(f, "w", encoding="utf-8") as h:
            h.write(u)
    return u != t


main()
