#!/usr/bin/env python3
"""Plants one edit at a time in code or definitions, checks the crate, and takes the edit out again.

    tools/plant.py [NAME..]     the edits of tools/planted/NAME.txt; all of them, the lowest crates first, if none is named

An edit is a file of lines: `bug:` what is wrong, `crate:`, `file:`, `old:` (standing once in that file) and `new:`; in the last two, a \\n
is the end of a line. An edit of a definition, under specs/, has one line more: `lost:` a lemma that has to be refused, and what it says.
For each one a row of a table in docs/PLANTED.md is printed. Of code: the bug, its crate, and what no longer holds: a function, the clauses
that its goals name, or else all of them, and the goals that are no longer proved. Of definitions: the edit, the definition, the lemma, the
samples that no longer come out, and the theorems that are lost with it. Ends with status 1 where all is still proved, where nothing is
refused but names that the changed code no longer has, or where another lemma is refused than is named.
"""
import pathlib
import re
import signal
import subprocess
import sys

ROOT = pathlib.Path(__file__).resolve().parent.parent
PLANTED = ROOT / "tools" / "planted"
KEYS = ("bug", "crate", "file", "old", "new")
# An error that says no more than that a proof file names what the changed code does not have.
UNFIT = re.compile(r"that can be named from here|has no field|is not in scope")
ERROR = re.compile(r"^(?:so far: )?\./(\S+)\.antt:\d+:\d+: error: (?:`([^`]+)`: )?(.*)", re.M)
# A goal that no answer is written for, and that the check did not prove by itself.
OPEN = re.compile(r"^(?:so far: )?note: src/(\w+)\.rt:(\d+):\d+: it is not proved .*?\(`([^`]+)`\)", re.M)


def read_bug(path):
    fields = dict(line.split(": ", 1) for line in path.read_text().splitlines() if line)
    wanted = KEYS + ("lost",) if fields.get("file", "").startswith("specs/") else KEYS
    if tuple(fields) != wanted:
        sys.exit(f"{path}: wants the lines {', '.join(wanted)}")
    for key in ("old", "new"):
        fields[key] = fields[key].replace("\\n", "\n")
    return fields


def ticked(names):
    return ", ".join(f"`{name}`" for name in dict.fromkeys(names))


def source_of(crate, module):
    return (ROOT / "crates" / crate / "src" / module).with_suffix(".rt").read_text()


def function_at(crate, module, line):
    """The function of a module whose text has this line; an attribute's is the one below it."""
    lines = source_of(crate, module).split("\n")
    while lines[line - 1].lstrip().startswith("#["):
        line += 1
    above = "\n".join(lines[:line])
    return f"{module}::" + re.findall(r"^ *(?:pub )?fn (\w+)", above, re.M)[-1]


def unmet(crate, log):
    """The goals that are no longer proved, by function; a function that fails only through one that it calls has none."""
    goals = {}
    for path, goal, why in ERROR.findall(log):
        if goal and path.endswith("/Answers") and not UNFIT.search(why):
            goals.setdefault(path.removeprefix("proofs/").removesuffix("/Answers").replace("/", "::"), []).append(goal)
    for module, line, goal in OPEN.findall(log):
        goals.setdefault(function_at(crate, module, int(line)), []).append(goal)
    return goals


def clauses(crate, function, goals):
    """The clauses of a function that these goals name, or else all; where it has none, what its impl says that it gives."""
    module, *_, name = function.split("::")
    source = source_of(crate, module)
    head = re.search(rf"fn {name}\b((?:(?!\bfn ).)*?)^ *\{{$", source, re.S | re.M)
    found = re.findall(r"^ *ensures (?:(\w+) )?\{ (.*) \}$", head.group(1) if head else "", re.M)
    if not found:
        found = [(None, f"{name}_gives = {says}") for says in re.findall(rf"^ *ghost {name}_gives = \{{ (.*) \}};$", source, re.M)]
    named = [text for name, text in found if any(goal.endswith(f"-clause-{name}") for goal in goals)]
    return ticked(named or [text for _, text in found]) or "?"


def in_code(bug, log):
    """The row of a bug in the code, and whether it was not caught."""
    crate = bug["crate"]
    caught = [f"`{function}`: {clauses(crate, function, goals)} ({ticked(goals)})" for function, goals in unmet(crate, log).items()]
    return f"{crate} | {'; '.join(caught) or 'NO GOAL NAMED'}", not caught


def in_definitions(bug, text, log):
    """The row of an edit of the definitions, and whether its lemma was not refused."""
    definition = re.findall(r"\bpub (\S+) :", text[: text.index(bug["old"])])[-1]
    place = f"`{definition}` in `{bug['file'].removeprefix('specs/')}`"
    errors = ERROR.findall(log)
    if any(path.startswith("specs/") for path, _, _ in errors):
        return f"{place} | NO DEFINITION", True
    refused = {name: path.removeprefix("proofs/") for path, name, why in errors if name and not UNFIT.search(why)}
    samples = [sample for path, _, why in errors if re.search(r"(Guard|Worked)Facts$", path)
               for sample in re.findall(r"expected type `(?:Rattle\.model\.specs\.Guards\.)?([^`.]+)`", why)]
    theorems = re.findall(r"^(?:so far: )?fn [^:]+::(\S+): (?:not proved|no proof)", log, re.M)
    lemma, says = bug["lost"].split(": ", 1)
    if lemma not in refused:
        return f"{place} | ANOTHER LEMMA: {ticked(refused)}", True
    return f"{place} | `{lemma}` in `{refused[lemma]}.antt`: {says} | {ticked(samples)} | {ticked(theorems)}", False


def check(bug, text):
    """The row of an edit that is planted in this text, and whether it was not caught."""
    run = subprocess.run(["rt", "check"], cwd=ROOT / "crates" / bug["crate"], capture_output=True, text=True)
    log = run.stdout + run.stderr
    if run.returncode == 0:
        return "STILL PROVED", True
    if "logic=not-proved" not in log:
        return "NOT CHECKED: " + (log.splitlines() or ["no output"])[-1], True
    return in_definitions(bug, text, log) if "lost" in bug else in_code(bug, log)


def plant(path):
    bug = read_bug(path)
    source = ROOT / "crates" / bug["crate"] / bug["file"]
    text = source.read_text()
    if text.count(bug["old"]) != 1:
        sys.exit(f"{path}: the old text stands {text.count(bug['old'])} times in {source}")
    try:
        source.write_text(text.replace(bug["old"], bug["new"]))
        row, survived = check(bug, text)
    finally:
        source.write_text(text)
    print(f"| {bug['bug']} | {row} |", flush=True)
    return survived


def lowest_first(paths):
    """The edits in the order of the crates in crates.txt, so that no crate is built anew for one above it."""
    crates = re.findall(r"^(\w+)[^:\n]*:", (ROOT / "crates.txt").read_text(), re.M)
    return sorted(paths, key=lambda path: (crates.index(read_bug(path)["crate"]), path))


def main():
    for end in (signal.SIGTERM, signal.SIGHUP):
        signal.signal(end, lambda *_: sys.exit("stopped"))  # so that the edit is taken out all the same
    paths = [PLANTED / f"{name}.txt" for name in sys.argv[1:]] or lowest_first(PLANTED.glob("*.txt"))
    survivors = sum([plant(path) for path in paths])
    sys.exit(1 if survivors else 0)


if __name__ == "__main__":
    main()
