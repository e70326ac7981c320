#!/usr/bin/env python3
"""Spells the names of this repository's definitions and lemmas in snake case, types and modules in camel case.

usage: tools/port_names.py [--show] [ROOT]

It was run once, after the kit's own scripts had turned the spelling of its library. A name that specs/ or proofs/ declare turns where it
begins with a small letter: `digitRun` becomes `digit_run`. A dash stays only between two names (`length-put`); a plain word hangs on by
`_` (`few_at`). What Rattle makes of the source, and names of the source itself, keep their spelling, as does a name that would fall
together with another one. --show prints what turns and what stays, and writes nothing."""
import collections, pathlib, re, sys

NAME = r'[^\s(){}.;,@"«»]+'
# a declaration, at any depth: a definition, a lemma, a field or a constructor
DECLARED = re.compile(rf"(?m)^ *(?:(?:pub|abbrev|unfoldable|pattern|data|record) +)*({NAME})((?: +{NAME})*)(?: \([^()\n]*\)| \{{[^{{}}\n]*\}})* :(?=\s)")
WORD = re.compile(NAME)
# the words of the library that lemmas' names are made of, beside our own definitions
LIBRARY = set("""length take drop append set replicate get_or map cond and or not add sub mul div mod min max leb ltb eqb nil cons reverse
concat sum part put""".split())
# what Rattle makes, and the library's own words that our files declare again
MADE = re.compile(r"^(returns|loop|if|match|in|then|else|invariant|decreases|shape_of|bounds|overflow|slice_bounds)(-|$)|-(requires|spec)(-\d+)?$")


def snake(part):
    """A part of a name between dashes."""
    if not part[:1].islower():
        return part
    return re.sub(r"(?<=[a-z0-9])[A-Z]+", lambda m: "_" + m[0].lower(), part)


def turned(name, words):
    if not name[:1].islower() or not name.isascii() and not re.match(r"[a-z]", name):
        return name
    parts = [snake(part) for part in name.split("-")]
    made = parts[0]
    for last, part in zip(parts, parts[1:]):
        joins = last in words and part in words or part[:1].isupper() or not re.match(r"\w", part[:1] or "+")
        made += ("-" if joins else "_") + part
    return made


def texts(root):
    for pattern in ("crates/*/specs/**/*.antt", "crates/*/proofs/**/*.antt"):
        yield from sorted(root.glob(pattern))


def declared(file):
    text = file.read_text()
    for match in DECLARED.finditer(text):
        yield match[1]
        yield from match[2].split()


def imported(root):
    """The names that some file has from a library and not from a crate here: they are the library's."""
    crates = {folder.name for folder in (root / "crates").iterdir()}
    for file in [*texts(root), *root.glob("crates/*/src/**/*.rt")]:
        for match in re.finditer(r"use ([^\s;{]+)\.\{([^}]*)\}", file.read_text()):
            if match[1].split(".")[:1] != ["Rattle"] or match[1].split(".")[1] not in crates:
                yield from (item.strip().split(" as ")[0] for item in match[2].split(","))


def table(root):
    """The names that turn, and those that stay since they would meet another name."""
    names, definitions = set(), set()
    for file in texts(root):
        if file.name in ("Proof.antt", "Answers.antt", "Invariants.antt"):
            continue
        found = set(declared(file))
        names |= found
        if "specs" in file.parts:
            definitions |= found
    names -= set(imported(root))
    words = {snake(name) for name in definitions if "-" not in name} | LIBRARY
    rows = {name: turned(name, words) for name in names if not MADE.search(name)}
    rows = {old: new for old, new in rows.items() if old != new}
    # a lemma that would have its definition's name ends in _lem
    owner = {}
    for old in sorted(rows, key=lambda name: ("-" in name, name)):
        owner.setdefault(rows[old], old)
    for old, new in sorted(rows.items()):
        if owner[new] != old:
            rows[old] = new + "_lem"
    # so does a name that some file has for something else: a variable, or a parameter of the source
    taken = {file: taken_in(file) for file in [*texts(root), *sorted(root.glob("crates/*/src/**/*.rt"))]}
    has = {file: set(WORD.findall(file.read_text())) if file.suffix == ".antt" else set(re.findall(r"\w+", file.read_text())) for file in taken}
    meet = {}
    for old, new in sorted(rows.items()):
        both = [file for file in taken if old in has[file] and new in taken[file]]
        if both:
            meet[old] = (new, both)
            rows[old] = new + "_lem"
    every = set().union(*has.values())
    for old, new in list(rows.items()):
        if new.endswith("_lem") and new in every:
            rows[old] = old
    return {old: new for old, new in rows.items() if old != new}, meet


def taken_in(file):
    """The names that a file has for something of its own: of proofs those behind no dot, of the source parameters and fields."""
    text = file.read_text()
    if file.suffix == ".rt":
        return set(re.findall(r"\b(\w+)\s*:(?!:)", text)) | set(re.findall(r"\blet (?:mut )?(\w+)", text))
    return set(re.findall(rf"(?<![^\s(){{}};,@\"«»])({NAME})", re.sub(r"(?m)^use .*$|--.*$", "", text)))


def respell(text, rows, word=WORD):
    return word.sub(lambda m: rows.get(m[0], m[0]), text)


def in_source(text, rows):
    """A file of src/: camel case turns outside quoted text, and dashes in clauses alone."""
    made = []
    for line in text.split("\n"):
        clause = re.search(r"\b(ghost|requires|ensures)\b", line)
        pieces = re.split(r'("(?:\\.|[^"\\])*")', line)
        for i in range(0, len(pieces), 2):
            if clause:
                pieces[i] = respell(pieces[i], rows)
            else:
                pieces[i] = re.sub(r"(?<![\w-])[a-z]\w*[A-Z]\w*(?![\w-])", lambda m: rows.get(m[0], m[0]), pieces[i])
        made.append("".join(pieces))
    return "\n".join(made)


def in_edit(text, rows):
    made, where = [], ""
    for line in text.split("\n"):
        if line.startswith("file: "):
            where = line
        if line.startswith(("old: ", "new: ")):
            line = in_source(line, rows) if ".rt" in where else respell(line, rows)
        elif line.startswith("refused: "):
            line = re.sub(r"(?<=[ .])[\w'-]+", lambda m: rows.get(m[0], m[0]), line)
        made.append(line)
    return "\n".join(made)


def in_page(text, rows):
    """A page: the words of code spans."""
    return re.sub(r"`[^`\n]+`", lambda m: re.sub(r"[\w'-]+", lambda w: rows.get(w[0], w[0]) if "-" in w[0] or re.search("[a-z][A-Z]", w[0]) else w[0], m[0]), text)


def main(words):
    show = "--show" in words
    words = [word for word in words if word != "--show"]
    root = pathlib.Path(words[0] if words else ".").resolve()
    rows, stay = table(root)
    if show:
        for old, new in sorted(rows.items()):
            print(old, new)
        for old, (new, both) in stay.items():
            print("meets:", old, new, "->", rows.get(old, old), *[file.relative_to(root) for file in both][:3])
        return
    for file in texts(root):
        file.write_text(respell(file.read_text(), rows))
    for file in root.glob("crates/*/src/**/*.rt"):
        file.write_text(in_source(file.read_text(), rows))
    for file in root.glob("crates/*/must-fail/*.edit"):
        file.write_text(in_edit(file.read_text(), rows))
    for file in [root / "README.md", *root.glob("docs/**/*.md")]:
        file.write_text(in_page(file.read_text(), rows))
    print(len(rows), "names turned,", len(stay), "would have met another")


main(sys.argv[1:])
