"""Counts the places in src/ that the pass on design looks at, point by point (docs/DESIGN-PASS.md). `python3 tools/places.py` prints
the counts, with --list each place too."""

import collections
import pathlib
import re
import sys

TOP = pathlib.Path(__file__).resolve().parent.parent
SOURCES = sorted((TOP / "crates").glob("*/src/**/*.rt"))
LINES = [(path.relative_to(TOP), i, line) for path in SOURCES for i, line in enumerate(path.read_text().split("\n"), 1)]
CODE = [(path, i, line) for path, i, line in LINES if not line.lstrip().startswith(("//", "ghost use"))]


def matching(pattern):
    """The lines of code in which the pattern is found."""
    return [(path, i, line.strip()) for path, i, line in CODE if re.search(pattern, line)]


def functions():
    """Each function: its file, line, name, parameters and clauses."""
    for path in SOURCES:
        text = path.read_text()
        for found in re.finditer(r"^ *(?:pub(?:\(crate\))? )?(?:final )?fn (\w+)[^(]*\(([^)]*)\)([^{;]*(?:\{ [^\n]* \}\n[^{;]*)*)", text, re.M):
            line = text.count("\n", 0, found.start()) + 1
            parameters = [p for p in re.split(r",\s*", found[2].strip().rstrip(",")) if p]
            yield path.relative_to(TOP), line, found[1], parameters, found[3]


def repeated_clauses():
    """Facts that stand in the requires or ensures of three functions or more of a crate, split at the products."""
    places = collections.defaultdict(list)
    for path, line, name, _, clauses in functions():
        for body in set(re.findall(r"(?:requires|ensures)(?: \w+)? \{ ([^\n]*) \}", clauses)):
            for fact in set(re.split(r" × ", body)):
                places[path.parts[1], fact.strip("()")].append((path, line, f"{name}: {fact}"))
    return [at for found in places.values() if 3 <= len(found) for at in found]


def long_lists():
    """Functions with more than five parameters."""
    return [(path, line, f"{name}: {len(p)} parameters") for path, line, name, p, _ in functions() if 5 < len(p)]


def same_names():
    """Functions that share a name with another one, bodies of an impl aside."""
    named = collections.defaultdict(list)
    for path, line, name, _, _ in functions():
        named[re.sub(r"^(is_|has_)|_(one|two|four|kind|core)$", "", name)].append((path, line, name))
    return [at for found in named.values() if 1 < len(found) for at in found]


HELPERS = r"fn (wide|value|standing|chosen|order_number|order_at|agree|number|number_of|short|field|is_found|both|unless|larger|smaller|with_bit)\("

POINTS = [
    ("1", "enums of a value or a refusal, or of a value or none", matching(r"^\s*(pub )?enum \w*(Read|Formed|Fragment|Count|Fields|Substituted|Subrange|Desugared|Variable|Alias|Walked|Outcome|Negated|Judged|Checked|Costed|Ran)\b")),
    ("1", "results that are the number of a refusal, or 0", [at for at in matching(r"fn \w*(refusal|rule)\(.*-> u8")] ),
    ("1", "kinds, patterns, modes and operations as numbers", matching(r"\b(kind|pattern|mode|drop|operation|operator|of|first): u(8|32)\b")),
    ("1", "refusals as numbers in a constructor", matching(r"(Refused|Costed)\((\d+|number|rule|first|second|raised)\b")),
    ("2", "functions of one name, but for an ending", same_names()),
    ("3", "loops over an index", matching(r"^\s*while ")),
    ("4", "conversions, comparisons and bits by hand", matching(HELPERS)),
    ("4", "types with no derive but Clone and Copy", matching(r"^\s*#\[derive\(Clone, Copy\)\]")),
    ("5", "facts in the clauses of three functions of a crate", repeated_clauses()),
    ("5", "functions with more than five parameters", long_lists()),
    ("6", "arrays of a fixed length", matching(r"\[[\w]+; \w+\]")),
    ("6", "bytes with a length beside them", [(p, l, f"{n}: {x}") for p, l, n, ps, _ in functions() for x in ps if re.match(r"(\w*bits|room|size|count|n): (usize|u32)", x)]),
    ("7", "switches on a kind or an operation, flags for a step", matching(r"match (kind|operation|head\.kind)\b|write: bool|job\.write")),
]

if __name__ == "__main__":
    for point, words, places in POINTS:
        print(f"{point}  {len(places):4}  {words}")
        if "--list" in sys.argv:
            for path, line, text in places:
                print(f"        {path}:{line}: {text}")
    answers = [p for p in (TOP / "crates").glob("*/proofs/**/*.antt") if p.name in ("Answers.antt", "Invariants.antt")]
    print(f"8  {len(answers):4}  files of answers and invariants, {sum(p.read_text().count(chr(10)) for p in answers)} lines")
