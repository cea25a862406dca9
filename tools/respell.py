#!/usr/bin/env python3
"""Brings the repository's own names in specs/, proofs/ and clauses to the library's spelling.

usage: python3 tools/respell.py LANDED     at the top, where LANDED is a checkout of the commit from which the names are taken

Functions, fields, constructors and lemmas are in snake case. In a lemma's name a dash stays between two names of definitions, and any other part is
joined by an underscore. Names of types, of src/ and of other libraries stay.
"""

import os
import re
import sys

TOKEN = re.compile(r"[^\s(){}\[\],;.λ¬\"`⌜⌝|]+")
HEAD = re.compile(r"^(\s*)((?:(?:pub|abbrev|unfoldable)\s+)*)([^\s(){}\[\],;.λ:|=]+)((?:\s+[^\s(){}\[\],;.λ:|=]+)*)\s*:(?:\s|$)")
USE = re.compile(r"\buse\s+([^\s;{]+?)\.?\{([^}]*)\}", re.S)
STD = set(
    "length take drop set get_or append replicate map filter sum sum_by add sub mul div mod suc min max fold reverse cond not and or le lt eq"
    " slice_index slice_set float fadd fsub fmul fdiv pow isqrt root".split()
)
# Names that would fall together with another definition's in one file.
APART = {"q-free": "q_free_holds", "e-free": "e_free_holds"}


def files(top, *ends):
    for folder, dirs, names in os.walk(os.path.join(top, "crates")):
        dirs[:] = sorted(d for d in dirs if d != "out")
        for n in sorted(names):
            if n.endswith(ends):
                yield os.path.join(folder, n)


def read(p):
    with open(p, encoding="utf-8") as f:
        return f.read()


def heads(top):
    """Each name that a file of specs/ or of lemmas declares, with whether it is a lemma."""
    found = {}
    for p in files(top, ".antt"):
        if os.path.basename(p) in ("Proof.antt", "Lib.antt"):
            continue
        inside = None
        for line in read(p).splitlines():
            block = re.match(r"^(\s*)(?:pub\s+)?(?:unfoldable\s+)?(?:record|data)\b", line)
            if block:
                inside = len(block.group(1))
                continue
            m = HEAD.match(line)
            if not m:
                if line.strip() and inside is not None and len(line) - len(line.lstrip()) <= inside:
                    inside = None
                continue
            if inside is not None and len(m.group(1)) <= inside:
                inside = None
            lemma = inside is None and "abbrev" not in m.group(2) and "unfoldable" not in m.group(2)
            for name in [m.group(3), *m.group(4).split()]:
                found[name] = found.get(name, True) and lemma
    return found


def snake(name):
    name = name.replace("′", "'")
    if not re.match(r"^[a-z]", name) or not re.search(r"[A-Z]", name):
        return name
    return re.sub(r"(?<=[a-z0-9])([A-Z])", lambda m: "_" + m.group(1), name).lower() if re.fullmatch(r"[A-Za-z0-9_'-]+", name) else name


def spelled(name, lemma, known):
    parts = [p if re.match(r"^[A-Z]", p) else snake(p) for p in name.split("-")]
    if len(parts) == 1 or any(not p for p in parts):
        return parts[0] if len(parts) == 1 else name
    if not lemma:
        return "_".join(parts)
    out = parts[0]
    for a, b in zip(parts, parts[1:]):
        both = all(p in known or re.match(r"^[A-Z]", p) for p in (a, b))
        out += ("-" if both else "_") + b
    return out


def own_libraries(top):
    return sorted(c for c in os.listdir(os.path.join(top, "crates")) if os.path.isdir(os.path.join(top, "crates", c, "src")))


def foreign(text, own):
    """The names that a file brings in from another repository's libraries."""
    names = set()
    for module, listed in USE.findall(text):
        top = module.split(".")
        if top[0] == "Rattle" and len(top) > 1 and top[1] in own:
            continue
        names |= {w.split(" as ")[0].strip() for w in listed.split(",")}
    return names


def main(argv):
    landed = argv[0]
    old, new = heads(landed), heads(".")
    key = lambda n: n.replace("_", "-").replace("′", "'")
    base = {}
    for n in old:
        base.setdefault(key(n), n)
    known = STD | {snake(n) for n in new if "-" not in n and not new[n]} | {snake(n) for n in old if "-" not in n and not old[n]}
    turned = {}
    for n, lemma in new.items():
        if "◌" in n or re.match(r"^[A-Z]", n) or not re.search(r"[A-Z-]", n) and key(n) not in base:
            continue
        turned[n] = spelled(base.get(key(n), n), lemma and old.get(base.get(key(n)), lemma), known)
    turned = {a: b for a, b in turned.items() if a != b}
    turned |= {n: b for n, b in APART.items() if n in new}
    # a lemma that would have a definition's name ends in _lem
    by = {}
    for n in new:
        by.setdefault(turned.get(n, n), set()).add(n)
    for b, many in by.items():
        if len(many) > 1:
            lemmas = {n for n in many if new[n]}
            if lemmas != many:
                turned |= {n: b + "_lem" for n in lemmas}
            print("together:", b, sorted(many), "lemmas:", sorted(lemmas))
    own = set(own_libraries("."))
    outside = set()
    for p in files(".", ".antt", ".rt"):
        outside |= foreign(read(p), own)
    camel = lambda t: snake(t) if re.match(r"^[a-z][a-zA-Z0-9]*[A-Z]", t) and "-" not in t and t not in outside else t
    count = 0
    for p in files(".", ".antt", ".rt", ".edit"):
        text = read(p)
        # what the file brings in from elsewhere, and what a proof calls its own steps
        brought = set() if p.endswith(".edit") else foreign(text, own)
        steps = {m.group(3) for m in map(HEAD.match, text.splitlines()) if m} if os.path.basename(p) == "Proof.antt" else set()

        def turn(m):
            t = m.group(0)
            before = text[max(0, m.start() - 5) : m.start()]
            # a name that src/ may have too
            if not re.search(r"[A-Z-]", t) and (before.endswith(".") or not p.endswith(".antt")):
                return t
            if before.endswith(("tie.", "goal.")) or t in brought:
                return t
            return camel(t) if t in steps else turned.get(t) or camel(t)

        after = TOKEN.sub(turn, text)
        if after != text:
            count += 1
            with open(p, "w", encoding="utf-8") as f:
                f.write(after)
    docs = [os.path.join("docs", n) for n in sorted(os.listdir("docs")) if n.endswith(".md")] + ["README.md"]
    for p in docs:
        text = read(p)
        after = re.sub(r"`[^`\n]+`", lambda q: TOKEN.sub(lambda m: turned.get(m.group(0)) or (camel(m.group(0)) if m.group(0) in new else m.group(0)), q.group(0)), text)
        if after != text:
            with open(p, "w", encoding="utf-8") as f:
                f.write(after)
    print(len(turned), "names,", count, "files")
    return 0


if __name__ == "__main__":
    raise SystemExit(main(sys.argv[1:]))
