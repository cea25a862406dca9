#!/usr/bin/env python3
"""Counts the places of docs/DESIGN-PASS.md in src/: `python3 tools/design_places.py [--list] [CHECKOUT]`."""

import collections
import glob
import os
import re
import sys

KEYWORDS = "let mut for in if else return match while loop as true false".split()
MATH = "+ - * / < >".split()


def without_comments(text):
    return re.sub(r"//[^\n]*", "", text)


def sources(root):
    """(crate, path, text) of each file of src/."""
    for path in sorted(glob.glob(os.path.join(root, "crates/*/src/**/*.rt"), recursive=True)):
        crate = path.split("/crates/")[1].split("/")[0]
        yield crate, path, without_comments(open(path).read())


def functions(text):
    """(name, parameters, clauses, body) of each function."""
    for m in re.finditer(r"^\s*(?:pub )?(?:extern \"C\" )?fn (\w+)(?:<(?:->|[^>])*>)?\(", text, re.M):
        depth, i = 1, m.end()
        while depth:
            depth += {"(": 1, ")": -1}.get(text[i], 0)
            i += 1
        parameters = text[m.end() : i - 1]
        start, offset = None, i
        for line in text[i:].split("\n"):
            opens = line.rstrip().endswith("{") and line.count("{") > line.count("}")
            if line.strip() == "{" or opens and not re.match(r"\s*(requires|ensures)", line):
                start = offset + line.rindex("{")
                break
            offset += len(line) + 1
        if start is None:
            continue
        depth, end = 0, start
        while True:
            depth += {"{": 1, "}": -1}.get(text[end], 0)
            end += 1
            if depth == 0:
                break
        yield m.group(1), parameters, text[i:start], text[start:end]


def shape(body):
    """The body with names, numbers and operators blanked; None for a short one."""
    out = []
    for token in re.findall(r"[A-Za-z_]\w*|\d[\w.]*|[^\s\w]", body):
        if token in KEYWORDS:
            out.append(token)
        elif re.match(r"[A-Za-z_]", token):
            out.append("N")
        elif token[0].isdigit():
            out.append("0")
        else:
            out.append("o" if token in MATH else token)
    return " ".join(out) if len(out) >= 14 else None


def parts(parameters):
    """The parameters, each 'name: type'."""
    return [p.strip() for p in re.split(r",(?![^<(\[]*[>)\]])", parameters) if p.strip()]


def main():
    arguments = [a for a in sys.argv[1:] if a != "--list"]
    root = arguments[0] if arguments else "."
    found = collections.OrderedDict()

    def count(point, place):
        found.setdefault(point, []).append(place)

    twins = collections.defaultdict(list)
    facts = collections.defaultdict(list)
    for crate, path, text in sources(root):
        for m in re.finditer(r"^\s*(?:pub )?enum (\w+)[^{]*\{(.*?)^\s*\}", text, re.M | re.S):
            count("1a enums", f"{crate}::{m.group(1)}")
        for m in re.finditer(r"^\s*(?:pub )?struct (\w+)[^{;]*\{(.*?)^\s*\}", text, re.M | re.S):
            fields = re.findall(r"(\w+): ([^,\n]+)", m.group(2))
            for name, kind in fields:
                if len(fields) > 1 and (kind == "bool" or name in ("verdict", "ending", "number", "more")):
                    count("1b flags and verdicts beside values", f"{crate}::{m.group(1)}.{name}")
                if re.fullmatch(r"count|words|tempos|anchors|spans|len", name) and any(k.startswith("[") for _, k in fields):
                    count("6b counts beside arrays in structs", f"{crate}::{m.group(1)}.{name}")
        for name, parameters, clauses, body in functions(text):
            place = f"{crate}::{name}"
            if re.match(r"\s*-> u32\b", clauses) and not re.search(r"extern \"C\" fn " + name + r"\b", text):
                count("1c answers that are u32 codes", place)
            s = shape(body)
            if s:
                twins[s].append(place)
            if re.search(r"_(small|large)$", name):
                count("2b small and large", place)
            for loop in re.findall(r"\bfor ([a-z]\w*) in [^{\n&\[]*\.\.", body):
                count("3a loops over a range of indices", f"{place} {loop}")
            for _ in re.findall(r"\bwhile\b|\bloop \{", body):
                count("3b while and loop", place)
            for _ in re.findall(r"\{\} else \{", body):
                count("4b empty branches", place)
            for _ in re.findall(r"\bas (?:u64|usize|i64|u32|i32|u8)\b", body):
                count("4c casts by as", place)
            given = parts(parameters)
            if len(given) > 7:
                count("5a functions of more than seven parameters", f"{place} {len(given)}")
            kinds = [p.split(":")[-1].strip() for p in given]
            if any(k.startswith(("&[", "&mut [")) for k in kinds) and any(re.match(r"(n|m|k|r|count|count): usize", p) for p in given):
                count("6a slices with a count beside them", place)
            requires = " ".join(re.findall(r"requires \w*\s*\{(.*?)\}\s*(?=requires|ensures|$)", clauses, re.S))
            for fact in re.findall(r"(?:^|[ (])([A-Z]\w+) ", requires):
                facts[f"{crate}: {fact}"].append(place)
        for m in re.finditer(r"fn (min|max|either|larger|smaller|larger_of|smaller_of|abs|wide|between|copy|equal|total_less|from_usize|accepted|is_nan|is_finite|is_infinite|signum|clamp)\(", text):
            count("4a written by hand", f"{crate}::{m.group(1)}")
    for places in twins.values():
        if len(places) > 1:
            count("2a groups of functions of one shape", " ".join(places))
    for fact, places in sorted(facts.items()):
        if len(places) >= 3:
            count("5b facts in three contracts or more of a crate", f"{fact} {len(places)}")
    for point, places in sorted(found.items()):
        print(f"{len(places):4} {point}")
        if "--list" in sys.argv:
            for place in places:
                print(f"       {place}")


if __name__ == "__main__":
    main()
