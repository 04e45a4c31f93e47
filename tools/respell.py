#!/usr/bin/env python3
"""Spells the definitions and lemmas of this repository in snake case: areaPlaces and size-some become area_places and size_some.

usage: tools/respell.py [--check] [ROOT]

It goes by the declarations of specs/ and proofs/ below ROOT/crates (the folder above tools/ where none is given). Names of a library
stay, and so do the names that Rattle makes, functions of src/, exported names and strings. In a function's Proof.antt only what it
imports from the repository's own files turns. Ghost lines and clauses of src/ turn, and so do the lines of must-fail/*.edit.
It runs once, after the kit's own script. --check writes nothing and lists names that would fall together.
"""

import collections
import glob
import os
import re
import sys

NAME = r"(?:[^\s(){}.;,@\"«»`])+"
# Lemmas that the kit's script spelled like a definition.
LEMMAS = {"all_words", "any_held", "held_word", "in_bytes", "in_order", "lent_one", "map_at", "other_name"}
# Names that would meet one of a library.
APART = {"nan-bits": "nan_bits_lem"}
DECLARED = re.compile(
    rf"(?m)^[ \t]*(?:(?:pattern|unfoldable|abbrev|axiom|pub) )*({NAME})(?: \{{[^{{}}\n]*\}})*(?= :(?:\s|$))"
)
HEADS = re.compile(rf"(?m)^[ \t]*(?:(?:pattern|unfoldable|abbrev|pub) )*(?:record|data|module|ruleset) ({NAME})")
USE = re.compile(r"(?m)^\s*(?:pub )?(?:ghost )?use ([^\s;{]+?)(?:\.?\{([^}]*)\})?(?: as ([^\s;]+))?;?$", re.S)
GENERATED = re.compile(r"\.(declared|contracts|Statement|Tie|Lts|Goals|Given|Kinds|Reads|Met|Code)(\.|$)|\.\+[\w]+\.?$")
WORD = re.compile(NAME)


def turned(name):
    words = re.sub(r"(?<=[a-z0-9])([A-Z])", lambda m: "_" + m[1].lower(), name)
    return re.sub(r"-+", "_", words)


def wants(name):
    if "◌" in name or not re.match(r"[^\W\d_]", name) or name[0].isupper() or re.fullmatch(r"[-_]+", name):
        return False
    return turned(name) != name


def own_crates(root):
    return sorted(c for c in os.listdir(os.path.join(root, "crates")) if os.path.isdir(os.path.join(root, "crates", c, "src")))


def read(path):
    with open(path, encoding="utf-8") as f:
        return f.read()


def code(text):
    """The text with its comments blanked, at the same places."""
    return re.sub(r"(?m)(?:^|(?<=[\s(){},;]))--.*$", lambda m: " " * len(m[0]), text)


def unquoted(replace, text):
    """Turns the words of a text, but for what stands in quotes."""
    spans = [m.span() for m in re.finditer(r'"(?:\\.|[^"\\\n])*"', code(text))]
    return WORD.sub(lambda m: m[0] if any(a <= m.start() < b for a, b in spans) else replace(m), text)


def is_own(module, crates):
    if re.match(r"(?!Prim\b|Rattle\b)[A-Z]", module):
        return True
    m = re.match(r"Rattle\.(\w+)\.(specs|proofs)\.(\S+)", module)
    return bool(m) and m[1] in crates and ((m[1], m[2], m[3]) in crates[m[1]] or not GENERATED.search(module))


def imports(text, crates):
    """What a file imports: name to whether it is the repository's own."""
    out = {}
    for m in USE.finditer(text):
        for item in (m[2] or "").split(","):
            name = item.strip().split(" as ")[0].strip()
            if name:
                out[name] = is_own(m[1], crates)
    return out


def main(argv):
    check = "--check" in argv
    rest = [a for a in argv if a != "--check"]
    root = rest[0] if rest else os.path.dirname(os.path.dirname(os.path.abspath(__file__)))
    crates = {c: set() for c in own_crates(root)}
    files = {}
    for c in sorted(crates):
        for kind in ("specs", "proofs", "src", "must-fail"):
            for folder, _, names in os.walk(os.path.join(root, "crates", c, kind)):
                for n in sorted(names):
                    if n.endswith((".antt", ".rt", ".edit")):
                        path = os.path.join(folder, n)
                        files[path] = read(path)
                        inside = os.path.relpath(path, os.path.join(root, "crates", c, kind))
                        crates[c].add((c, kind, inside[: -len(".antt")].replace("/", ".")))
    proofs = {p for p in files if os.path.basename(p) == "Proof.antt"}
    own, where = set(), collections.defaultdict(set)
    declared = {}
    for p, t in files.items():
        if not p.endswith(".antt"):
            continue
        names = set(DECLARED.findall(code(t))) | set(HEADS.findall(code(t)))
        declared[p] = names
        if p not in proofs:
            own |= {n for n in names if wants(n)}
    # Of names that would fall together the definition keeps the plain one, and the lemma, spelled with a dash, ends in _lem.
    all_declared = set().union(*(declared[p] for p in declared if p not in proofs))
    for n in own:
        where[turned(n)].add(n)
    spelled = {}
    for new, olds in sorted(where.items()):
        both = olds | ({new} & all_declared)
        for n in olds:
            spelled[n] = APART.get(n) or (new + "_lem" if len(both) > 1 and "-" in n else new)
        left = [n for n in both if "-" not in n]
        if len(left) > 1:
            for n in left:
                if n in LEMMAS:
                    spelled[n] = new + "_lem"
            if sum(spelled.get(n, n) == new for n in left) > 1:
                print(f"MEET: {new}: {sorted(left)}")
    changed = 0
    for p, t in files.items():
        mine = imports(t, crates) if p.endswith(".antt") else {}
        foreign = {n for n, is_mine in mine.items() if not is_mine} - (declared.get(p, set()) if p not in proofs else set())

        made = set()

        def replace(m, p=p, mine=mine, foreign=foreign, t=t, made=made):
            n = m[0]
            if n not in spelled and mine.get(n) and wants(n):
                return turned(n)
            if n not in spelled or n in foreign:
                return n
            if n in LEMMAS and not (mine.get(n) or n in declared.get(p, ())):
                to = re.search(r"([\w]+)\.$", t[: m.start()])
                module = to and re.search(rf"(?m)^use Rattle\.(\w+)\.(\S+) as {to[1]}$", t)
                path = module and os.path.join(root, "crates", module[1], module[2].replace(".", "/") + ".antt")
                if not module or n not in declared.get(path, ()):
                    return n
            before = t[max(0, m.start() - 1):m.start()]
            if p in proofs and (before == "." or not mine.get(n)):
                return n
            made.add(spelled[n])
            return spelled[n]

        if p.endswith(".rt"):
            new = WORD.sub(replace, t)
        elif p.endswith(".antt"):
            new = unquoted(replace, t)
        elif p.endswith(".edit"):
            new = re.sub(r"(?m)^(?:old|new): .*$", lambda m: m[0][:5] + WORD.sub(replace, m[0][5:]), t)
        there = set(WORD.findall(code(t))) & made
        if check and there:
            print(f"there: {os.path.relpath(p, root)}: {sorted(there)}")
        if new != t:
            changed += 1
            if not check:
                with open(p, "w", encoding="utf-8") as f:
                    f.write(new)
    print(f"respelled: {len(spelled)} names, {changed} files")
    return 0


if __name__ == "__main__":
    raise SystemExit(main(sys.argv[1:]))
