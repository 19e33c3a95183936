#!/usr/bin/env python3
"""Brings the names that specs/ and proofs/ define to today's spelling, once, at the top of the repository.

    python3 tools/respell.py          respells every crate below crates/
    python3 tools/respell.py --list   prints each name with its new spelling, and changes nothing

Functions, lemmas, fields and variables are written in snake case, facts and types in upper camel
case; a dash stays only between the names of two functions. Names of src/, goals that the check
names, and names of the library stay. The script refuses to run where two names would fall together.
"""
import glob
import re
import sys

# words of the library that a lemma's name may join by a dash
LIBRARY = {"length", "take", "drop", "append", "get_or", "map", "cond", "replicate", "min"}
# names that would otherwise fall together with another
CHOSEN = {
    "before-zero": "before_at_zero",
    "in-table": "stab_in_table",
    "list-answer": "same_list_answer",
    "list-sections": "same_listed_sections",
    "list-segments": "same_listed_segments",
    "listSections": "listed_sections",
    "listSegments": "listed_segments",
    "tableEnd": "end_of_table",
    "zeroFilled": "zero_filled_section",
}
NAME = r"[A-Za-z_][A-Za-z0-9_'·]*(?:-[A-Za-z0-9_'·]+)*"
TOKEN = re.compile(r"(?<![A-Za-z0-9_'·-])" + NAME)
DEFINED = re.compile(r"^(?:(?:abbrev|unfoldable|pub|record|data) )*(" + NAME + r")(?: [({].*[)}])* : ")
MEMBER = re.compile(r"^ +(?:(?:abbrev|unfoldable|pub|record|data|let|in) )*(" + NAME + r")(?: [({].*[)}])* : ")
BINDER = re.compile(r"[({](" + NAME + r"(?: " + NAME + r")*) : ")


def antt_files():
    return sorted(
        glob.glob("crates/*/specs/**/*.antt", recursive=True)
        + glob.glob("crates/*/proofs/**/*.antt", recursive=True)
    )


def is_camel(name):
    return re.search(r"[a-z0-9][A-Z]", name) is not None and name[0].islower()


def snake(part):
    return re.sub(r"(?<=[a-z0-9])([A-Z])", lambda m: "_" + m.group(1).lower(), part).replace("·", "_")


def respelled(name, functions):
    parts = name.split("-")
    if name[0].isupper():
        return "".join(p[0].upper() + p[1:] for p in parts)
    parts = [snake(p) for p in parts]
    spelled = parts[0]
    for before, after in zip(parts, parts[1:]):
        joins = before in functions and after in functions
        spelled += ("-" if joins else "_") + after
    return spelled


def defined_names():
    """The names that the repository defines, and those of functions in specs/ alone."""
    names, functions = set(), set()
    for path in antt_files():
        for line in open(path, encoding="utf-8"):
            if line.startswith("use "):
                names.update(re.findall(r" as (" + NAME + r")", line))
            if line.startswith(("use ", "--")):
                continue
            found = DEFINED.match(line) or MEMBER.match(line)
            if found and not re.search(r" : goal\.", line):
                names.add(found.group(1))
                if "/specs/" in path and DEFINED.match(line):
                    functions.add(snake(found.group(1)))
            for group in BINDER.findall(line):
                names.update(group.split(" "))
    return names, functions


def foreign_names():
    """Names that come from the library, or that the check makes."""
    ours = {p.split("/")[1] for p in glob.glob("crates/*/")}
    names = set()
    for path in antt_files():
        for line in open(path, encoding="utf-8"):
            goal = re.match(r"^(?:abbrev |pub )*(" + NAME + r") : goal\.", line)
            if goal:
                names.add(goal.group(1))
            used = re.match(r"^use ([^{]*)\{(.*)\}", line)
            if used:
                top = used.group(1).split(".")
                if top[0] != "Rattle" or top[1] not in ours or ".Goals." in used.group(1):
                    names.update(w.split(" as ")[0].strip() for w in used.group(2).split(","))
    return names


def renames():
    names, functions = defined_names()
    functions |= LIBRARY
    foreign = foreign_names()
    table = {}
    for name in sorted(names - foreign):
        if "-" in name or "·" in name or is_camel(name):
            new = CHOSEN.get(name) or respelled(name, functions)
            if new != name:
                table[name] = new
    taken = {}
    for old, new in table.items():
        if new in names | foreign or new in taken:
            sys.exit(f"{old} and {taken.get(new, new)} would fall together as {new}")
        taken[new] = old
    return table


def respell(text, table):
    return TOKEN.sub(lambda m: table.get(m.group(0), m.group(0)), text)


def respell_clauses(text, table):
    """A .rt file: comments and strings stay."""
    lines = []
    for line in text.split("\n"):
        code, mark, comment = line.partition("//")
        lines.append((line if '"' in code else respell(code, table) + mark + comment))
    return "\n".join(lines)


def main():
    table = renames()
    if "--list" in sys.argv:
        for old, new in table.items():
            print(old, new)
        return
    for path in antt_files():
        text = open(path, encoding="utf-8").read()
        new = respell(text, table)
        if new != text:
            open(path, "w", encoding="utf-8").write(new)
    for path in sorted(glob.glob("crates/*/src/**/*.rt", recursive=True)):
        text = open(path, encoding="utf-8").read()
        new = respell_clauses(text, table)
        if new != text:
            open(path, "w", encoding="utf-8").write(new)


main()
