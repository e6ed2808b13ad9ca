#!/usr/bin/env python3
"""Brings the repository's own definitions and lemmas to snake case: run once, at the top, after port.py.

A name is renamed only in the files that declare it or import it from this repository, a record's field wherever it is projected.
Functions of src/, strings and exported names are not touched.
"""

import collections
import glob
import re

WORD = r"[^\s(){}\[\].,;:=λ∀→×↔≡≢≤<>⊢◌|\\\"`«»+*^/∷&]+"
SIGNATURE = re.compile(r"^(\s*)((?:(?:pub|abbrev|unfoldable|irrelevant|instance|private|opaque|rec)\s+)*)(" + WORD + r"(?:\s+" + WORD + r")*)\s+:\s")
IMPORT = re.compile(r"^\s*(?:pub |ghost )*use (Rattle\.[^\s;{]*?)\.\{([^}]*)\}", re.M | re.S)


def wanted(name):
    """The spelling in snake case, or the name itself where it is a type's, an operator's or has it already."""
    if not re.match(r"^[a-zαβ]", name) and not re.match(r"^[A-Z]+-[A-Z]+$", name):
        return name
    if re.match(r"^[A-Z]+-[A-Z]+$", name):
        return name.replace("-", "_")
    parts = name.split("-")
    out = [re.sub(r"(?<=[a-z0-9])([A-Z])", lambda m: "_" + m[1].lower(), p) if p[:1].islower() else p for p in parts]
    return "_".join(out)


def files():
    return sorted(f for f in glob.glob("crates/*/**/*.antt", recursive=True) + glob.glob("crates/*/**/*.rt", recursive=True) if "/out/" not in f)


def declared(path, text):
    """Top-level (or local) names and fields that the file declares."""
    names, fields = set(), set()
    if path.endswith(".rt"):
        return names, fields
    inside = False
    for line in text.splitlines():
        if line.lstrip().startswith("--"):
            continue
        if re.match(r"^(pub |abbrev )*record ", line):
            inside = True
        elif re.match(r"^(pub |abbrev )*data ", line):
            inside = False
        elif line and not line[0].isspace():
            inside = False
        m = SIGNATURE.match(line)
        if not m:
            continue
        rest = line[m.end():]
        if re.match(r"\(?c : tie\.|tie\.", rest) or "statement M" in rest:
            continue
        for n in m[3].split():
            if n in ("pub", "abbrev", "unfoldable"):
                continue
            (fields if inside and m[1] else names).add(n)
    return names, fields


def module_of(path):
    m = re.match(r"crates/(\w+)/(specs|proofs)/(.*)\.antt$", path)
    return "Rattle.%s.%s.%s" % (m[1], m[2], m[3].replace("/", ".")) if m else None


def imports(text):
    """(module, name, local name) of each import with a list."""
    for m in IMPORT.finditer(text):
        for item in m[2].split(","):
            parts = item.strip().split(" as ")
            if parts[0]:
                yield m[1], parts[0].strip(), parts[-1].strip()


def main():
    texts = {f: open(f, encoding="utf-8").read() for f in files()}
    by_module, all_fields, per_file = {}, set(), {}
    for f, t in texts.items():
        names, more = declared(f, t)
        per_file[f] = names
        all_fields |= more
        if module_of(f):
            by_module[module_of(f)] = names
    fields = {n: wanted(n) for n in all_fields}
    new = {(module, n): wanted(n) for module, names in by_module.items() for n in names}
    together(texts, per_file, new)
    for f, t in texts.items():
        module, in_source = module_of(f), f.endswith(".rt")
        scope = {n: new[module, n] for n in per_file[f]}
        scope |= {n: new[m, n] for m, n, local in imports(t) if (m, n) in new}
        whole = {(m[2] or m[1].rsplit(".", 1)[1]): m[1] for m in re.finditer(r"^\s*(?:pub |ghost )*use (Rattle\.[\w.'+-]+)(?: as ([\w'-]+))?;?$", t, re.M)}

        def turn(m):
            dot, n = m[1], m[2]
            if not dot:
                return scope.get(n) or (m[0] if in_source else fields.get(n, m[0]))
            owner = re.search(r"([\w'-]+)$", t[: m.start()])
            if owner and owner[1] in whole:
                return dot + new.get((whole[owner[1]], n), n)
            return m[0] if in_source else dot + fields.get(n, n)

        turned = re.sub(r"(\.?)(?<![\w'-])(" + WORD + ")", turn, t)
        if turned != t:
            open(f, "w", encoding="utf-8").write(turned)


def together(texts, per_file, new):
    """Gives a lemma whose new name meets another's in a file the ending _lem, and prints it."""
    for _ in range(3):
        found = False
        for f, t in texts.items():
            module = module_of(f)
            here = collections.defaultdict(set)
            for n in per_file[f]:
                here[new[module, n]].add((module, n))
            for m, n, local in imports(t):
                if n == local:
                    here[new.get((m, n), n)].add((m, n))
            for short, owners in here.items():
                turned = sorted(o for o in owners if "-" in o[1] and new.get(o) == short)
                if len({n for _, n in owners}) > 1 and turned:
                    found = True
                    print(f"{f}: {short} would be {sorted(owners)}: {turned[-1]} gets _lem")
                    new[turned[-1]] = short + "_lem"
            for name in re.findall(r"\bfn (\w+)", t) if f.endswith(".rt") else ():
                if any(n != name for _, n in here.get(name, ())):
                    print(f"look: {f}: fn {name} and the definition {sorted(here[name])}")
        if not found:
            return


if __name__ == "__main__":
    main()
