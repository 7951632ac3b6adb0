"""Lists the lines of crates/*/src, and counts the proofs, in which docs/DESIGN-PASS.md looks for places.

    python3 tools/places.py [FOLDER]        the counts of each point
    python3 tools/places.py FOLDER POINT    the lines of a point

What a line is worth is for a reader to say: the script finds more than there is.
"""
import pathlib
import re
import sys
from collections import defaultdict
from itertools import combinations

LINES = {
    "1 enums": r"^\s*(pub(\(crate\))? )?enum ",
    "1 truth values beside others": r"(:|->) bool\b",
    "1 numbers for kinds and refusals": r"^\s*\w+\(u(8|32|64)\),|refused_\d: u64|fn \w+\(.*number: u32",
    "1 errors made by hand": r"Err\(_\) =>|None => (None|Err\()|else \{\n\s*return (Err\(|None|\(None)|is_ok\(\)",
    "2 implementations of one trait": r"^impl\b.* for ",
    "3 loops": r"^\s*(while|loop|for)\b(?! \w+ \{$).*\{$",
    "4 comparisons, conversions and starting values by hand":
        r"fn (same\w*|eq|cmp|clone|new|none|from\w*|narrow|\w+_of|words|number)\b",
    "6 indexing": r"[\w\])]\[[\w. +-]+\]|\[[\w.]*\.\.[\w. +()-]*\]",
    "7 a step chosen by a value": r"^\s*match (kind|name|\*?self|call|command|family|width)\b|\bdyn\b|: fn\(|: F\b",
}


def sources(folder):
    return sorted(pathlib.Path(folder).glob("crates/*/src/**/*.rt"))


def found(folder, pattern):
    for path in sources(folder):
        text = path.read_text()
        for hit in re.finditer(pattern, text, re.M):
            line = text.count("\n", 0, hit.start()) + 1
            whole = text.splitlines()[line - 1].strip()
            if not whole.startswith(("//", "ghost use", "use ")):
                yield f"{path.relative_to(folder)}:{line}: {whole}"


def functions(folder):
    """Each function with its parameters, and with what its clauses read."""
    for path in sources(folder):
        for hit in re.finditer(r"fn (\w+)(<[^(]*>)?\(([^)]*)\)([^{;]*(\{[^\n]*\}\n\s*)*)", path.read_text()):
            parameters = [" ".join(p.split()) for p in hit[3].split(",") if ":" in p]
            yield f"{path.relative_to(folder)}:{hit[1]}", parameters, hit[4]


def together(folder):
    """Pairs of parameters that stand in three functions or more, and of places that three contracts read."""
    pairs = defaultdict(list)
    for name, parameters, clauses in functions(folder):
        for pair in combinations(sorted(parameters), 2):
            pairs["parameters " + " and ".join(pair)].append(name)
        read = sorted(set(re.findall(r"self\.(?:now|old)((?:\.[a-z]\w*)+)", clauses)))
        for pair in combinations(read, 2):
            pairs["clauses read self" + " and self".join(pair)].append(name)
        for term in sorted(set(re.findall(r"\(?(\w+) self\.now\)?", clauses))):
            pairs[f"clauses say {term} of self"].append(name)
    for pair, names in sorted(pairs.items()):
        if len(names) >= 3:
            yield f"{pair}: {', '.join(names)}"


def proofs(folder):
    files = [p for p in pathlib.Path(folder).glob("crates/*/proofs/**/*.antt")]
    answers = [p for p in files if p.name == "Answers.antt"]
    loops = [p for p in files if p.name == "Invariants.antt"]
    lines = sum(len(p.read_text().splitlines()) for p in files)
    yield f"{len(answers)} files of answers, {len(loops)} of invariants, {lines} lines of proofs in all"


def main():
    folder = sys.argv[1] if len(sys.argv) > 1 else "."
    point = sys.argv[2] if len(sys.argv) > 2 else None
    tables = {name: list(found(folder, pattern)) for name, pattern in LINES.items()}
    tables["5 what goes together"] = list(together(folder))
    tables["8 proofs"] = list(proofs(folder))
    for name, lines in sorted(tables.items()):
        if point is None:
            print(f"{name}: {len(lines) if name[0] != '8' else lines[0]}")
        elif name.startswith(point):
            print(f"{name}:")
            print("\n".join("  " + line for line in lines))


main()
