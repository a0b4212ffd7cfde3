#!/usr/bin/env python3
"""Brings the repository's own names of definitions and lemmas to Rattle's spelling, after port.py has been run.

usage: tools/respell.py [--dry]   at the top of the repository

Words are in snake case, types in camel case: `name-end` becomes `name_end`, `Mean-same` becomes `MeanSame`.
A dash stays in a lemma's name where it joins two definitions' names, as in `every-append`.
Names of src/, names that Rattle makes (goals, steps, fields of theirs), and names that a file takes from the library stay as they are.
"""

import os
import re
import sys

NAME = r"[^\s(){}\[\];,.:«»\"\\|]+"
TOKEN = re.compile(NAME)
CRATES = sorted(c for c in os.listdir("crates") if os.path.isdir(os.path.join("crates", c, "src")))

# words that the library joins to a name by a dash, as in `length-append`
LIBRARY = set("length take drop append map replicate set paste nil cons zero suc".split())


def files(*ends):
    for folder, dirs, names in os.walk("crates"):
        dirs[:] = sorted(d for d in dirs if d not in ("out", "must-fail", "data"))
        for n in sorted(names):
            if n.endswith(ends):
                yield os.path.join(folder, n)


def code(text):
    """The text without comments: -- to the end of a line, where a space or the line's beginning is before it."""
    return re.sub(r"(?m)(^|\s)--(\s.*)?$", r"\1", text)


def imports(text):
    """(module, names) of each use line."""
    for m in re.finditer(r"(?m)^\s*(?:ghost |pub )?use ([\w+.'«»-]+)\.\{([^}]*)\}", text):
        yield m.group(1), re.findall(NAME, m.group(2).replace(" as ", " "))


def own(module):
    p = module.split(".")
    made = {"declared", "contracts", "Goals", "Given"}
    return p[0] == "Rattle" and len(p) > 1 and p[1] in CRATES and not made & set(p)


DECLARED = re.compile(rf"(?m)^[ ]*((?:(?:pub|abbrev|unfoldable|record|data|mutual) )*)({NAME}(?: {NAME})*) :(?:\s|$)")
HEADED = re.compile(rf"(?m)^[ ]*(?:pub )?(?:record|data) ({NAME})")
BOUND = re.compile(rf"[({{]({NAME}(?: {NAME})*) : ")
LET = re.compile(rf"\blet ({NAME}) [:=] ")
GOAL = re.compile(rf"(?m)^(?:abbrev )?(?:pub )?({NAME}) : goal\.")


def main():
    texts = {f: open(f, encoding="utf-8").read() for f in files(".antt", ".rt")}
    antt = {f: code(t) for f, t in texts.items() if f.endswith(".antt")}
    defined, lemmas, variables, goals, foreign = set(), set(), set(), set(), set()
    for f, t in antt.items():
        goals |= set(GOAL.findall(t))
        for m in DECLARED.finditer(t):
            names = m.group(2).split(" ")
            (defined if "/specs/" in f or re.search("abbrev|unfoldable|record|data", m.group(1)) else lemmas).update(names)
        defined |= set(HEADED.findall(t))
        for rx in (BOUND, LET):
            for g in rx.findall(t):
                variables |= set(g.split(" "))
    for f, t in texts.items():
        for module, names in imports(t):
            if not own(module):
                foreign |= set(names)

    known = {n.replace("-", "_") for n in defined} | {n for n in defined if "-" not in n} | LIBRARY

    def turned(n):
        n = n.replace("′", "'")
        if "-" not in n.strip("-"):
            return n
        parts = n.split("-")
        if n[0].isupper():
            return parts[0] + "".join(p[:1].upper() + p[1:] for p in parts[1:])
        if n in lemmas and n not in defined:
            # the longest defined name at the front, then a dash if a defined name follows
            for k in range(len(parts) - 1, 0, -1):
                left, right = "_".join(parts[:k]), "_".join(parts[k:])
                if left in known and right in known:
                    return left + "-" + right
        return "_".join(parts)

    names = {n for n in defined | lemmas | variables if ("-" in n.strip("-") or "′" in n) and re.fullmatch(r"[\w'′₀-₉-]+", n)}
    kept = sorted(names & (goals | foreign))
    to = {n: turned(n) for n in sorted(names - goals - foreign)}
    to = {a: b for a, b in to.items() if a != b}

    # names that would fall together
    taken = {}
    everything = set()
    for t in antt.values():
        everything |= set(TOKEN.findall(t))
    for a, b in to.items():
        if b in everything or b in taken:
            print(f"falls together: {a} -> {b}{' (also ' + taken[b] + ')' if b in taken else ' (stands already)'}")
        taken[b] = a
    print(f"{len(to)} names turned; kept, as the library or Rattle has them: {' '.join(kept)}")

    if "--dry" in sys.argv:
        for a, b in to.items():
            print(f"{a}\t{b}")
        return 0
    for f, t in texts.items():
        new = TOKEN.sub(lambda m: to.get(m.group(0), m.group(0)), t)
        if new != t:
            with open(f, "w", encoding="utf-8") as out:
                out.write(new)
    return 0


if __name__ == "__main__":
    sys.exit(main())
