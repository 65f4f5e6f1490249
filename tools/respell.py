#!/usr/bin/env python3
"""Brings the repository's own words in lower camel case to snake case: `setOf` to `set_of`, `setOf-below` to `set_of-below`.

usage: respell.py [--dry] [FOLDER]      FOLDER: the top of a checkout on which port.py ran (here, if left out)

It turns .antt and .rt files of crates/, and names in backticks in README.md and below docs/. The must-fail edits
it leaves: their texts are turned with what each means in mind.
It also renames specs/Contracts.antt of a crate to specs/Promises.antt, with the paths that name it, since Rattle makes a
module `specs.contracts`, and the crate hex to hexadecimal, in crates.txt too, since the kit has a library named hex.
It stops, and changes nothing, where two names in lower camel case would be one; of a name that stands already, in that
file or elsewhere, it only warns. The table is always printed; --dry changes nothing.
"""
import collections
import pathlib
import re
import sys

words = [w for w in sys.argv[1:] if w != "--dry"]
dry = "--dry" in sys.argv
top = pathlib.Path(words[0] if words else ".")
CAMEL = re.compile(r"(?<![A-Za-z0-9_'])[a-z][a-z0-9]*(?:_[a-z0-9]+)*(?:[A-Z][a-z0-9]*)+(?:_[a-z0-9]+)*(?![A-Za-z0-9_])")


def snake(name):
    return re.sub(r"(?<=[a-z0-9])([A-Z])|(?<=[A-Z])([A-Z])(?=[a-z])", lambda m: "_" + m.group(0).lower(), name).lower()


def files():
    for kind in ("*.antt", "*.rt"):
        yield from sorted((top / "crates").rglob(kind))


texts = {p: p.read_text(encoding="utf-8") for p in files() if "out" not in p.relative_to(top).parts[2:3]}
found = collections.Counter()
where = collections.defaultdict(set)
for p, t in texts.items():
    for m in CAMEL.finditer(t):
        found[m.group(0)] += 1
        where[m.group(0)].add(p)
table = {n: snake(n) for n in found}

# names that fall together, among the camel-case ones or with one that stands already
back = collections.defaultdict(set)
for old, new in table.items():
    back[new].add(old)
clash = [(new, sorted(olds)) for new, olds in back.items() if len(olds) > 1]
token = re.compile(r"[^\s(){}\[\]⦃⦄,;.:=λ→⌜⌝\"`]+")
stands = collections.defaultdict(set)
for p, t in texts.items():
    for m in token.finditer(t):
        stands[m.group(0)].add(p)
near = [(old, new, sorted(str(q.relative_to(top)) for q in where[old] & stands.get(new, set()))) for old, new in table.items() if new in stands]
for old, new in sorted(table.items()):
    print(f"{old}\t{new}\t{found[old]}")
for new, olds in clash:
    print(f"falls together: {', '.join(olds)} would all be {new}", file=sys.stderr)
for old, new, both in sorted(near):
    kind = "in one file" if both else "elsewhere"
    print(f"look: {old} would be {new}, which stands already {kind}: {', '.join(both[:4]) or ', '.join(sorted(str(q.relative_to(top)) for q in stands[new])[:3])}", file=sys.stderr)
if clash:
    sys.exit("respell: nothing changed")
if dry:
    sys.exit(0)
for p, t in texts.items():
    new = CAMEL.sub(lambda m: table[m.group(0)], t)
    new = re.sub(r"(Rattle\.\w+\.specs\.)Contracts(?=\.)", r"\1Promises", new)
    if p.name == "Lib.antt" and p.parent.name == "specs":
        new = re.sub(r"(?m)^(pub mod )Contracts$", r"\1Promises", new)
    if new != t:
        p.write_text(new, encoding="utf-8")
    if p.name == "Contracts.antt" and p.parent.name == "specs":
        p.rename(p.with_name("Promises.antt"))
folder = top / "crates" / "hex"
if folder.exists():
    folder.rename(folder.with_name("hexadecimal"))
    for p in [*files(), top / "crates.txt", top / "README.md", *(top / "docs").rglob("*.md")]:
        t = p.read_text(encoding="utf-8")
        if p.name == "crates.txt":
            new = re.sub(r"(?m)(?<=[: ])hex(?=[ \n])|^hex(?=:)", "hexadecimal", t)
        elif p.suffix == ".md":
            new = re.sub(r"`hex`", "`hexadecimal`", t.replace("crates/hex/", "crates/hexadecimal/").replace("`hex/", "`hexadecimal/"))
        else:
            new = re.sub(r"\bRattle\.hex\.", "Rattle.hexadecimal.", t)
            new = re.sub(r"\bhex::", "hexadecimal::", new)
        if new != t:
            p.write_text(new, encoding="utf-8")
docs = [top / "README.md", *sorted((top / "docs").rglob("*.md"))]
for p in docs:
    if p.exists():
        t = p.read_text(encoding="utf-8")
        new = re.sub(r"`[^`\n]+`", lambda q: CAMEL.sub(lambda m: table.get(m.group(0), m.group(0)), q.group(0)), t)
        if new != t:
            p.write_text(new, encoding="utf-8")
