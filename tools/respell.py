#!/usr/bin/env python3
"""Brings the repository's own definitions, lemmas, constructors and labels to today's spelling, once, after port.py: words
in snake case, types in camel case.

usage: python3 tools/respell.py [--dry]     at the top of the repository

A name that a library of the toolchain has too keeps its spelling. In comments and in pages only names in backticks are turned.
It prints each file in which two names fall together: the definitions that have the name of the function or of the proof folder
that they speak of are meant to; another clash is to be mended by hand.
"""
import glob
import re
import sys

TOKEN = re.compile(r"(?<![\w'₀-₉-])[A-Za-z_][\w'₀-₉]*(?:-[\w'₀-₉]+)*")
DECLARED = re.compile(
    r"^\s*(?:\| )?(?:(?:abbrev|unfoldable|pattern|private|pub|ruleset) )*(?:(record|data|ruleset) )?((?:[^\s:(){}=;]+ )*?[^\s:(){}=;]+)"
    r"(?=\s*(?:[({][^=]*?)?\s:\s)"
)


def crates():
    with open("crates.txt", encoding="utf-8") as f:
        return {line.split(":")[0].split()[0] for line in f if line.strip() and not line.startswith("#")}


def files():
    found = glob.glob("crates/*/specs/**/*.antt", recursive=True) + glob.glob("crates/*/proofs/**/*.antt", recursive=True)
    return sorted(found), sorted(glob.glob("crates/*/src/**/*.rt", recursive=True))


def text_of(path):
    with open(path, encoding="utf-8") as f:
        return f.read()


USE = re.compile(r"^\s*(?:pub )?(?:ghost )?use ([^\s{;]+?)(?:\.\{([^}]*)\})?;?$", re.M)


def foreign_names(paths, own):
    found = set()
    for path in paths:
        for module, names in USE.findall(text_of(path)):
            inside = re.match(r"Rattle\.(\w+)\.", module)
            if not (inside and inside[1] in own):
                found |= {it.split(" as ")[0].strip() for it in names.split(",")}
    return found


def declared_names(paths):
    found = set()
    for path in paths:
        for line in text_of(path).splitlines():
            line = line.split(" -- ")[0]
            if line.lstrip().startswith(("--", "use ", "mod ", "pub mod ", "pub use ")):
                continue
            it = DECLARED.match(line)
            if it:
                found |= {n for n in it[2].split() if TOKEN.fullmatch(n)}
            it = re.match(r"\s*(?:abbrev |pub )*(?:record|data|ruleset) (?:pub )?([^\s:(){}=]+)", line)
            if it:
                found.add(it[1])
        for module, names in USE.findall(text_of(path)):
            found |= {it.split(" as ")[1].strip() for it in names.split(",") if " as " in it}
    return found


def respelled(name):
    if re.match(r"[A-Z]", name):
        return "".join(part[:1].upper() + part[1:] for part in name.split("-"))
    name = name.replace("-", "_")
    return re.sub(r"(?<=[a-z0-9])([A-Z])", lambda it: "_" + it[1].lower(), name)


def table_of(declared, foreign):
    """The new name of each declared one. A lemma that would have its definition's name, or a library's, gets `_lem`."""
    table = {name: respelled(name) for name in declared}
    definitions = {new for old, new in table.items() if old != new and "-" not in old}
    taken = definitions | foreign | {old for old, new in table.items() if old == new}
    for old, new in table.items():
        if ("-" in old or old == new) and old[0].islower() and new in taken and not (old == new and new not in definitions):
            table[old] = new + "_lem"
    return {old: new for old, new in table.items() if old != new}


def turn_code(text, table):
    def new(it):
        before, behind = text[: it.start()], text[it.end() :]
        if before.endswith("proofs."):
            return it[0]
        # a label keeps its definition's name
        is_label = before.endswith(".") or behind.startswith(" =") and before.strip() or before.strip() == "pub" and behind.startswith(" : length label")
        name = table.get(it[0], it[0])
        return name.removesuffix("_lem") if it[0] == "label-fits" and is_label else name

    return TOKEN.sub(new, text)


def turn_ticked(text, table):
    return re.sub(r"`[^`\n]+`", lambda it: turn_code(it[0], table), text)


def turn_line(line, table, mark):
    at = line.find(mark)
    if at < 0:
        return turn_code(line, table)
    return turn_code(line[:at], table) + turn_ticked(line[at:], table)


def turn_antt(text, table):
    return "\n".join(turn_line(line, table, "--") for line in text.split("\n"))


def turn_rt(text, table):
    table = {old: new for old, new in table.items() if not re.fullmatch(r"[a-z_0-9]+", old)}
    return "\n".join(turn_line(line, table, "//") for line in text.split("\n"))


def turn_edit(text, table):
    def turn(line):
        return turn_code(line, table) if line.startswith(("old:", "new:")) else turn_ticked(line, table)

    return "\n".join(turn(line) for line in text.split("\n"))


def clashes(path, text, table):
    """The names of a file that would fall together."""
    code = "\n".join(line.split("--" if path.endswith(".antt") else "//")[0] for line in text.split("\n"))
    came = {}
    for name in {it for it in TOKEN.findall(code)}:
        came.setdefault(table.get(name, name), set()).add(name)
    return {new: old for new, old in came.items() if len(old) > 1}


def main():
    own = crates()
    proofs, sources = files()
    foreign = foreign_names(proofs + sources, own)
    table = table_of(declared_names(proofs) - foreign, foreign)
    found = False
    for path in proofs + sources:
        for new, old in sorted(clashes(path, text_of(path), table).items()):
            print(f"{path}: {', '.join(sorted(old))} would all be {new}")
            found = True
    print(f"{len(table)} names")
    if "--dry" in sys.argv:
        return 0
    pages = ["README.md"] + sorted(glob.glob("docs/**/*.md", recursive=True))
    edits = sorted(glob.glob("crates/*/must-fail/*.edit")) + sorted(glob.glob("unfinished/edits/**/*.edit", recursive=True))
    for path in proofs + sources + pages + edits:
        turn = turn_antt if path.endswith(".antt") else turn_rt if path.endswith(".rt") else turn_edit if path.endswith(".edit") else turn_ticked
        old = text_of(path)
        new = turn(old, table)
        if new != old:
            with open(path, "w", encoding="utf-8") as f:
                f.write(new)
    return 0


if __name__ == "__main__":
    raise SystemExit(main())
