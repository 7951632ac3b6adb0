#!/usr/bin/env python3
"""Spells the repository's own definitions, fields, lemmas and variables of specs/ and proofs/ as today's Rattle does.

usage: python3 tools/respell.py        at the top of the repository, once, after the kit's port.py

Words are joined by '_', and types are in camel case. A dash stays where it joins two names, as in 'length-overlay'.
Functions of src/, exported names, strings, inputs and outputs keep their names, and so does what the library or the
check itself names. The script prints each definition that it turned, and stops, with nothing written, where two names
of one crate would fall together.
"""

import collections
import os
import re
import sys

# Names that are no plain turn of dashes into underscores: a lemma of two names, a name of the library's that a lemma
# is about and that is called otherwise today, and two lemmas that would get their function's own name.
BY_HAND = {
    "length-overlay": "length-overlay",
    "length-runs-of": "length-runs_of",
    "getD-overlay": "get_or-overlay",
    "nth-runs-of": "slice_get-runs_of",
    "of-bits": "of_bits_lem",
    "of-fields": "of_fields_lem",
}
# Fields of a record of specs/ that are to be called as those of the struct in src/ that it describes.
SHARED_FIELDS = ("key-place", "value-place")
OF_THE_LIBRARY = re.compile(r"use (?:Rattle\.(?:std|core)|borrow|denote|lib|Prim|mathlib|heap|antt)\b[^{\n]*\{([^}]*)\}")
OF_THE_CHECK = re.compile(r"use Rattle\.[\w.+]*\.(?:Goals|Given|declared[\w.]*)\.\{([^}]*)\}")
TOKEN = re.compile(r'[^\s(){}.;,@"«»]+')
DASHED = re.compile(r"[A-Za-z][\w']*(?:-[\w']+)+")
DEFINED = re.compile(r"(?m)^ *(?:abbrev |unfoldable |pub )*(?:(?:data|record|ruleset) ([^\s:({]+)|([^\s:({]+) :(?=\s))")
SPAN = re.compile(r"`[^`\n]+`")


def new_spelling(name):
    if name in BY_HAND:
        return BY_HAND[name]
    if name[0].isupper():
        return "".join(part[0].upper() + part[1:] for part in name.split("-"))
    return name.replace("-", "_")


def is_lemma_file(path):
    """Whether the file stands in specs/ or proofs/ itself: one in a folder below answers goals, whose names are the check's."""
    return os.path.basename(os.path.dirname(path)) in ("specs", "proofs")


def antt_code(text):
    """The parts of an antt file: (is it code, the part). Comments and quoted texts are no code."""
    for part in re.split(r'((?m:^ *--.*$)|(?<=\s)-- .*|"(?:[^"\\\n]|\\.)*")', text):
        yield not (part.lstrip().startswith("--") or part.startswith('"')), part


def rt_code(text):
    for part in re.split(r'(//.*|"(?:[^"\\\n]|\\.)*")', text):
        yield not (part.startswith("//") or part.startswith('"')), part


def dashed(tokens):
    return {t for t in tokens if DASHED.fullmatch(t)}


def imported(text):
    """The names that a file has from the library or from what the check makes."""
    names = set()
    for pattern in (OF_THE_LIBRARY, OF_THE_CHECK):
        for found in pattern.findall(text):
            names |= set(re.split(r"[,\s]+", found))
    return names


def bound(text):
    """The variables that a file binds by λ or let."""
    names = set()
    for found in re.findall(r"\blet ([^\s:=]+)", text) + re.findall(r"λ ([^.]+)\.", text):
        names |= dashed(TOKEN.findall(found))
    return names


def turned(code, names):
    return TOKEN.sub(lambda m: names.get(m.group(0), m.group(0)), code)


def main():
    files = []
    for folder, folders, names in os.walk("crates"):
        folders[:] = sorted(f for f in folders if f != "out")
        files += [os.path.join(folder, n) for n in sorted(names) if n.endswith((".antt", ".rt"))]
    texts = {}
    for path in files:
        with open(path, encoding="utf-8") as f:
            texts[path] = f.read()

    # the definitions, fields and lemmas, by crate, and in which file each stands
    own = collections.defaultdict(set)
    for path, text in texts.items():
        if path.endswith(".antt") and is_lemma_file(path):
            code = "".join(part for is_code, part in antt_code(text) if is_code)
            for made, said in DEFINED.findall(code):
                name = made or said
                if DASHED.fullmatch(name):
                    own[name].add(path)
    definitions = {name: new_spelling(name) for name in own}

    # names that fall together: a new spelling that a file has already, beside the old one
    clashes = []
    for path, text in texts.items():
        if not (path.endswith(".antt") and is_lemma_file(path)):
            continue
        tokens = set(TOKEN.findall("".join(part for is_code, part in antt_code(text) if is_code)))
        for old in dashed(tokens):
            new = new_spelling(old)
            if new != old and new in tokens and old not in SHARED_FIELDS:
                clashes.append(f"{path}: {old} and {new}")
    if clashes:
        print("\n".join(clashes))
        sys.exit("respell: names would fall together; nothing was written")

    for path, text in texts.items():
        names = dict(definitions)
        if path.endswith(".antt"):
            taken = imported(text)
            tokens = dashed(TOKEN.findall("".join(part for is_code, part in antt_code(text) if is_code)))
            mine = tokens if is_lemma_file(path) else bound(text)
            names.update({t: new_spelling(t) for t in mine})
            for t in taken - set(own):
                names.pop(t, None)
            parts = antt_code(text)
        else:
            parts = rt_code(text)
        new = "".join(turned(part, names) if is_code else part for is_code, part in parts)
        if new != text:
            with open(path, "w", encoding="utf-8") as f:
                f.write(new)

    # names in documents stand in code spans
    for path in ["README.md"] + sorted(os.path.join("docs", n) for n in os.listdir("docs") if n.endswith(".md")):
        with open(path, encoding="utf-8") as f:
            text = f.read()
        new = SPAN.sub(lambda m: "`" + turned(m.group(0)[1:-1], definitions) + "`", text)
        if new != text:
            with open(path, "w", encoding="utf-8") as f:
                f.write(new)

    for name in sorted(definitions):
        print(f"{name} {definitions[name]}")


main()
