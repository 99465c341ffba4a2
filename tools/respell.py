#!/usr/bin/env python3
"""Respells the repository's own definitions and lemmas as the newer Rattle spells names: words in snake case, types and modules in camel case.

Run it once at the top of the repository, right after the kit's port.py. It reads which names the files of specs/ and proofs/ declare,
and renames those that hold a dash, wherever they stand: in definitions, proofs, clauses, must-fail edits and, between backticks, in README
and docs/. Names of goals and of steps of the code, which Rattle makes, stay, and so do functions, strings, inputs and outputs.
"""
import collections
import pathlib
import re
import sys

TOP = pathlib.Path(".")
CRATES = TOP / "crates"
TOKEN = re.compile(r"(?<![\w'-])[A-Za-z][\w']*(?:-[\w']+)+(?![\w'-])")
DECLARED = re.compile(r"^(\s*)(?:(?:abbrev|unfoldable)\s+)?(?:pub\s+)?(?:(record|data)\s+(?:pub\s+)?)?([A-Za-z][\w'-]*)\s*(?:[({].*)?:(?!:)")


def antt_files():
    for part in ("specs", "proofs"):
        yield from sorted(CRATES.glob(f"*/{part}/**/*.antt"))


def goals_of(text):
    """The names in a proof file that Rattle gives: its answers and invariants."""
    return set(re.findall(r"^(?:abbrev\s+)?(?:pub\s+)?([\w'-]+)\s*:\s*goal\.", text, re.M))


def declared():
    """The names that the files declare, and those of them that are fields of records."""
    names, fields = set(), set()
    for path in antt_files():
        text = path.read_text(encoding="utf-8")
        goals, record = goals_of(text), False
        for line in text.splitlines():
            if line.startswith("use "):
                names.update(re.findall(r" as ([a-z][\w'-]*)", line))
            if line.startswith("--") or line.startswith("use "):
                continue
            m = DECLARED.match(line)
            if line and not line[0].isspace():
                record = bool(re.match(r"(?:pub\s+)?record\s", line))
            if not m or m[3] in goals or " = " in line.split(" : ")[0]:
                continue
            if not m[1]:
                names.add(m[3])
            elif record:
                fields.add(m[3])
            elif re.match(r"\s+(?:pub\s+)?[A-Za-z]", line) and not re.match(r"\s+let\b", line):
                names.add(m[3])
    return {n for n in names if "-" in n}, {n for n in fields if "-" in n}


def respelled(name):
    if name[0].isupper():
        return "".join(w[:1].upper() + w[1:] for w in name.split("-"))
    return name.replace("-", "_")


def turn(text, names, fields, goals):
    def new(m):
        name, before = m[0], text[: m.start()]
        if before.endswith("goal.") or name in goals:
            return name
        if before.endswith("."):
            path = re.search(r"Rattle\.[\w.'+-]*\.$", before)
            return respelled(name) if name in fields or (path and name in names) else name
        return respelled(name) if name in names or name in fields else name

    return TOKEN.sub(new, text)


def together(names):
    spelled = collections.defaultdict(set)
    for n in names:
        spelled[respelled(n)].add(n)
    return sorted(sorted(s) for s in spelled.values() if len(s) > 1)


def modules():
    """Files of modules whose names have an underscore, by their old and new names."""
    for path in antt_files():
        if path.stem[0].isupper() and "_" in path.stem:
            yield path, "".join(w[:1].upper() + w[1:] for w in path.stem.split("_"))


def main():
    names, fields = declared()
    if (same := together(names | fields)):
        print("fall together:", same, file=sys.stderr)
        return 1
    moved = list(modules())
    sources = [*CRATES.glob("*/src/**/*.rt"), *CRATES.glob("*/must-fail/*")]
    for path in sorted([*antt_files(), *sources]):
        text = path.read_text(encoding="utf-8")
        new = turn(text, names, fields, goals_of(text) if path.suffix == ".antt" else set())
        for old, module in moved:
            new = re.sub(rf"(?<![\w'-]){re.escape(old.stem)}(?![\w'-])", module, new)
        if new != text:
            path.write_text(new, encoding="utf-8")
    for old, module in moved:
        old.rename(old.with_name(module + ".antt"))
    for path in sorted([TOP / "README.md", *TOP.glob("docs/*.md")]):
        text = path.read_text(encoding="utf-8")
        new = re.sub(r"`[^`\n]*`", lambda m: turn(m[0], names, fields, set()), text)
        if new != text:
            path.write_text(new, encoding="utf-8")
    print(len(names | fields), "names respelled")
    return 0


if __name__ == "__main__":
    raise SystemExit(main())
