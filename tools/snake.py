#!/usr/bin/env python3
"""tools/snake.py: spells the repository's own definitions, record fields, constructors and lemmas in snake case, as the library of this Rattle does.

Run once, at the top, after the kit's port.py. A name that a file of specs/ or proofs/ declares and that begins with a small letter gets an underscore
before each capital, which becomes small: keyOf is key_of, chained-roleIn is chained-role_in. Types keep their capitals. With --check it changes nothing
and prints the names that would fall together with another."""
import collections, os, re, sys

NAME = r"[^\W\d][\w'⁻¹ᴰ₀-₉]*(?:-[\w'⁻¹ᴰ₀-₉]+)*"
TOKEN = re.compile(r"(?<![\w'])" + NAME)
DECLARES = re.compile(r"^\s*(?:(?:abbrev|unfoldable|pub|data|record|ruleset)\s+)*(" + NAME + r")(?:\s+\(.*\))?\s*:\s")
# names that are not declared by a line of their own
ALSO = {"unusedC", "oldLast"}
# a lemma or a local fact that would have the name of a definition which its file uses
FIRST = {
    ("crates/meaning/proofs/Within.antt", "all_keep"): "all_keep_lem",
    ("crates/meaning/proofs/Rows.antt", "by_span"): "by_span_lem",
    ("crates/survey/proofs/Surveying.antt", "ends_read"): "ends_read_lem",
}


def snake(name):
    def part(p):
        return re.sub(r"(?<=[a-z0-9])([A-Z])", lambda m: "_" + m[1].lower(), p) if p[0].islower() else p
    return "-".join(part(p) for p in name.split("-"))


def files():
    for folder, dirs, names in os.walk("crates"):
        dirs[:] = sorted(d for d in dirs if d != "out")
        for n in sorted(names):
            if n.endswith((".antt", ".rt")):
                yield os.path.join(folder, n)


texts = {p: open(p, encoding="utf-8").read() for p in files()}
tokens = {p: collections.Counter(TOKEN.findall(t)) for p, t in texts.items()}
declared = set(ALSO)
for p, t in texts.items():
    if p.endswith(".antt"):
        for line in t.split("\n"):
            if m := DECLARES.match(line):
                declared.add(m[1])
renames = {n: snake(n) for n in declared if snake(n) != n}
if "--check" in sys.argv:
    for old, new in sorted(renames.items()):
        where = [p for p, c in tokens.items() if new in c]
        antt = [p for p in where if p.endswith(".antt")]
        both = [p for p in where if old in tokens[p]]
        if where:
            print(f"{old} -> {new}: in {len(antt)} antt, {len(where) - len(antt)} rt; with the old name in {both[:6]}")
    seen = collections.defaultdict(set)
    for old, new in renames.items():
        seen[new].add(old)
    for new, olds in seen.items():
        if len(olds) > 1:
            print("FALL TOGETHER", new, olds)
    sys.exit()
changed = 0
for p, t in texts.items():
    new = TOKEN.sub(lambda m: renames.get(m[0], FIRST.get((p, m[0]), m[0])), t)
    if new != t:
        open(p, "w", encoding="utf-8").write(new)
        changed += 1
print(f"{len(renames)} names, {changed} files")
