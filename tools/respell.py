#!/usr/bin/env python3
"""Respells this repository's own definitions, lemmas, fields and variables of specs/ and proofs/: words in snake case.

usage: python3 tools/respell.py [--dry]      at the top of a repository that was turned by /opt/rattle/port/port.py

A name of ours is one that a file of specs/ or proofs/ has, that is written with a dash or with a capital after a small
letter, and that no library is asked for. Names that Rattle makes from the source (goals, steps and arms of the proofs'
generated names) keep their dashes, and so do the library's names. In .rt files only clauses and ghost items are turned,
in must-fail edits only the text of specs/ and of clauses, in Markdown only what stands in backticks. Strings, code and
comments stay. Nothing is written if two names would fall together in one file.
"""

import os
import re
import sys

WORD = re.compile(r"(?<![\w'◌-])[A-Za-zℕℤ][\w'ℕℤ]*(?:-[\w'ℕℤ]+)+(?![\w'◌-])|(?<![\w'◌-])[a-z]+(?:[A-Z][a-z0-9]+)+(?![\w'◌-])")
USE = re.compile(r"use\s+([\w.'◌-]+)\.\{([^}]*)\}", re.S)
# How the names begin that Rattle makes for a function's goals and steps.
MADE = re.compile(
    r"^(returns|loop|invariant|invariant_of|decreases|ensures|requires|overflow|overflow_\w+|bounds|offset_bounds|offset|"
    r"slice_bounds|slice|nonzero\w*|prove|unreachable|if|in|in_ok|in_err|in_default|then|else|match|ghost|the|type|field|"
    r"After|Of|Queued|Then|f|deref|push|put|is|size|with|to|is_\w+)-"
)
MADE_END = re.compile(r"-(\d+|requires|index|item|items|end|test|init|preserved|smaller|iterator|clause|is|raw)$")


def files(root, *endings):
    for folder, dirs, names in os.walk(root):
        dirs[:] = sorted(d for d in dirs if d not in (".git", "out", "target"))
        for n in sorted(names):
            if n.endswith(endings):
                yield os.path.join(folder, n)


def text_of(path):
    with open(path, encoding="utf-8") as f:
        return f.read()


def bare(text):
    """The text without its comments."""
    return re.sub(r"(?m)(^|\s)--.*$", "", text)


def own_crates(root):
    return set(os.listdir(os.path.join(root, "crates")))


def is_lemma_file(path):
    """A file of specs/, or right in proofs/: nothing there is named by Rattle."""
    parts = path.split(os.sep)
    return "specs" in parts or parts[-2] == "proofs"


def library_names(root):
    """The names that some file asks a library for."""
    crates = own_crates(root)
    found = set()
    for path in files(os.path.join(root, "crates"), ".antt", ".rt"):
        for module, names in USE.findall(text_of(path)):
            parts = module.split(".")
            if parts[0] != "Rattle" or parts[1] not in crates:
                found.update(WORD.findall(names))
    return found


def own_names(root):
    library = library_names(root)
    found = set()
    for path in files(os.path.join(root, "crates"), ".antt"):
        text = bare(text_of(path))
        if is_lemma_file(path):
            found.update(WORD.findall(text))
        else:
            # a lemma beside the answers, and what it takes
            for name in re.findall(r"(?m)^(?:abbrev |unfoldable |pub )*(\S+) :(?! goal\.)", text):
                if WORD.fullmatch(name) and not MADE.match(name):
                    found.add(name)
    return {n for n in found if n not in library}


def snake(name):
    if name[0].isupper():  # a fact
        return "".join(part[0].upper() + part[1:] for part in name.split("-"))
    return re.sub(r"(?<=[a-z0-9])([A-Z])", lambda m: "_" + m.group(1).lower(), name.replace("-", "_"))


def turn(text, table):
    return WORD.sub(lambda m: table.get(m.group(0), m.group(0)), text)


def turn_antt(text, table):
    lines = []
    for line in text.split("\n"):
        at = re.search(r"(^|\s)--(\s|$)", line)
        cut = at.start() if at else len(line)
        lines.append(turn(line[:cut], table) + line[cut:])
    return "\n".join(lines)


def turn_rt(text, table):
    """The ghost items and the clauses: what stands between the braces of a clause ends on its line."""
    out, inside = [], False
    for line in text.split("\n"):
        ghost = re.match(r"\s*(pub )?ghost\b|\s*(requires|ensures)\b", line)
        if ghost and not line.lstrip().startswith("//"):
            inside = True
        out.append(turn(line, table) if inside else line)
        if inside and re.search(r"[};,]\s*$", line) and line.count("{") <= line.count("}"):
            inside = False
    return "\n".join(out)


def turn_edit(text, table):
    if re.search(r"(?m)^file: specs/", text):
        return turn(text, table)
    return "\n".join(turn(l, table) if re.match(r"(old|new): .*(requires|ensures|ghost)\b", l) else l for l in text.split("\n"))


def turn_page(text, table):
    return re.sub(r"`[^`\n]+`", lambda m: turn(m.group(0), table), text)


def fall_together(root, table):
    """Where a file has a name already in the new spelling beside one that would get it."""
    clashes = []
    for path in files(os.path.join(root, "crates"), ".antt"):
        text = bare(text_of(path))
        # a name for an argument in a type is no name of the file
        unnamed = re.sub(r"\([^()]*? : ", "( : ", text)
        here = set(WORD.findall(unnamed)) & set(table)
        for name in sorted(here):
            for other in sorted(here):
                if name < other and table[name] == table[other]:
                    clashes.append((os.path.relpath(path, root), name, other))
        for name in sorted(here):
            # the label of a field and a name for an argument in a type do not count
            if re.search(r"(?<![\w'.◌(-])%s(?![\w'◌-])(?! [=:])" % re.escape(table[name]), text):
                clashes.append((os.path.relpath(path, root), name, table[name]))
    return clashes


def main():
    root = os.getcwd()
    table = {n: snake(n) for n in own_names(root)}
    clashes = fall_together(root, table)
    for path, old, new in clashes:
        print(f"respell: {path}: {old} would fall together with {new}", file=sys.stderr)
    if "--dry" in sys.argv:
        for n in sorted(table):
            print(n, table[n])
        return 0
    if clashes and "--anyhow" not in sys.argv:
        return 1
    turns = [
        ("crates", (".antt",), turn_antt),
        ("crates", (".rt",), turn_rt),
        ("crates", (".edit",), turn_edit),
        ("docs", (".md",), turn_page),
        (".", ("README.md", "ARCHITECTURE.md"), turn_page),
    ]
    changed = 0
    for folder, endings, by in turns:
        for path in files(os.path.join(root, folder), *endings):
            old = text_of(path)
            new = by(old, table)
            if new != old:
                changed += 1
                with open(path, "w", encoding="utf-8") as f:
                    f.write(new)
    print(f"respell: {len(table)} names, {changed} files")
    return 0


if __name__ == "__main__":
    raise SystemExit(main())
