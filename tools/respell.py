#!/usr/bin/env python3
"""Brings the repository's own definitions and lemmas to the spelling of today's Rattle.

usage: python3 tools/respell.py [--list]      at the top of the repository, once, right after port.py

A definition, a record's field and a lemma are in snake case, and a fact is in camel case. A lemma named after the function
that it speaks of keeps the dash behind that function's name. A file's names are ours where the file declares them or imports
them from one of the crates of this repository; the library's names, and those that Rattle makes, stay as they are.
--list prints old and new names, and names that would fall together, and writes nothing.
"""

import os
import re
import sys

NAME = r"[^\s(){}\[\].,;:|↦]+"
DECLARED = re.compile(r"^(\s*)((?:abbrev |unfoldable |pub |data |record |private )*)(" + NAME + r")\s*(?:[({].*)?:(?!=)")
TOKEN = re.compile(NAME)
# functions of the library after which a lemma may be named
LIBRARY = {"length", "get_or", "take", "drop", "set", "map", "sum", "replicate", "append"}
# names of ours whose parts were respelled by the library
PARTS = {"getD": "get_or", "putMid": "put_mid"}
# functions that lemmas of other files begin with by chance
NOT_HEADS = {"same", "passes"}
# names that would fall together with a function of src/
OTHERWISE = {"first-root": "first_root_of"}


def files(root="crates"):
    for folder, dirs, names in os.walk(root):
        dirs[:] = sorted(d for d in dirs if d not in ("out", "target"))
        for n in sorted(names):
            if n.endswith((".antt", ".rt")):
                yield os.path.join(folder, n)


def imports(text, own):
    """(name, module) of each name that a file imports from a crate of ours, and of each from elsewhere."""
    ours, others = set(), set()
    for m in re.finditer(r"(?:^|\n)(?:ghost |pub )*use\s+([^\s{;]+)\.\{([^}]*)\}", text):
        crate = re.match(r"Rattle\.(\w+)\.", m.group(1))
        inside = crate and crate.group(1) in own and not re.search(r"\.(Goals|Given|contracts|declared)\b", m.group(1))
        for n in m.group(2).replace("\n", " ").split(","):
            (ours if inside else others).add(n.strip().split(" as ")[-1].strip())
            if inside:
                ours.add(n.strip().split(" as ")[0].strip())
    return ours, others


def snake(name):
    name = re.sub(r"(?<=[a-z0-9])([A-Z])(?=[a-z])", lambda m: "_" + m.group(1).lower(), name)
    return name.replace("-", "_")


def respelled(name, kind, functions):
    if name in OTHERWISE:
        return OTHERWISE[name]
    if name[0].isupper():
        return "".join(p[0].upper() + p[1:] for p in name.split("-"))
    parts = [PARTS.get(p, p) for p in name.split("-")]
    if kind == "lemma":
        for k in range(len(parts) - 1, 0, -1):
            head = snake("-".join(parts[:k]))
            if head in functions and head not in NOT_HEADS:
                return head + "-" + snake("-".join(parts[k:]))
    return snake("-".join(parts))


def declarations(path, text):
    """(name, kind) of each definition, field, constructor and lemma that the file declares."""
    within = None
    for line in text.split("\n"):
        if re.match(r"\S", line):
            within = "record" if re.match(r"(pub )?(record|data)\b", line) else None
        m = DECLARED.match(line)
        if not m or line.strip().startswith(("let ", "in ", "--", "use ", "module ", "elim ", "λ")):
            continue
        if re.search(r":\s*goal\.", line):
            continue
        name, words = m.group(3), m.group(2)
        if within == "record" or re.search(r"abbrev|unfoldable|data|record", words):
            yield name, "definition"
        elif len(m.group(1)) <= 4:
            yield name, "lemma"


def main(argv):
    own = {d for d in os.listdir("crates") if os.path.isdir(os.path.join("crates", d, "src"))}
    texts = {p: open(p, encoding="utf-8").read() for p in files()}
    declared, functions, kinds = {}, set(LIBRARY), {}
    for p, t in texts.items():
        if p.endswith(".antt"):
            declared[p] = list(declarations(p, t))
            for n, k in declared[p]:
                kinds.setdefault(n, set()).add(k)
    for n, k in kinds.items():
        if "definition" in k and not n[0].isupper():
            functions.add(snake("-".join(PARTS.get(q, q) for q in n.split("-"))))
    turned = {}
    for n, k in kinds.items():
        new = respelled(n, "definition" if "definition" in k else "lemma", functions)
        if new != n and re.search(r"[-A-Z]", n):
            turned[n] = new
    fields = set()
    for p, t in texts.items():
        within = False
        for line in t.split("\n"):
            if re.match(r"\S", line):
                within = bool(re.match(r"(pub )?record\b", line))
            m = DECLARED.match(line)
            if within and m and m.group(1):
                fields.add(m.group(3))
    clashes = []
    for p, t in texts.items():
        ours, others = imports(t, own)
        mine = {n for n, _ in declared.get(p, [])} | ours
        here = {n: turned[n] for n in mine if n in turned and (n not in others or n in ours)}
        tokens = set(TOKEN.findall(t))
        for n, new in here.items():
            if n in tokens and new in tokens:
                clashes.append((p, n, new))

        def swap(m, here=here, t=t):
            w = m.group(0)
            if w in here:
                return here[w]
            before = t[m.start() - 1 : m.start()]
            if w in turned and re.search(r"(?<![\w.])[A-Z]\w*\.$", t[: m.start()][-80:]):
                return turned[w]
            if w in turned and w in fields and (before == "." or re.match(r"\s*=(?!=)", t[m.end() : m.end() + 3])):
                return turned[w]
            return w

        new_text = TOKEN.sub(swap, t)
        if new_text != t and "--list" not in argv:
            with open(p, "w", encoding="utf-8") as f:
                f.write(new_text)
    if "--list" in argv:
        for n in sorted(turned):
            print(n, "->", turned[n], sorted(kinds[n]))
        rev = {}
        for n, new in turned.items():
            rev.setdefault(new, []).append(n)
        for new, olds in sorted(rev.items()):
            if len(olds) > 1 or new in kinds:
                print("TOGETHER", new, olds, "already" if new in kinds else "")
        for c in clashes:
            print("CLASH", *c)
    return 0


if __name__ == "__main__":
    raise SystemExit(main(sys.argv[1:]))
