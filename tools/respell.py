#!/usr/bin/env python3
"""Respells the repository's own definitions and lemmas as today's Rattle writes names.

usage: python3 tools/respell.py [--list]        at the top of the repository, straight after the kit's port.py

A word of .antt files turns where it is the repository's own, and so does each use of it in the clauses, `ghost use`
items and comments of .rt files: a capital inside a word becomes `_` and the small letter; a dash becomes `_`, but
where it joins the names of two functions of specs/ or of the library, or a type and a name. Words of the library
and words that Rattle makes stay. --list writes nothing and prints each word with its new spelling.
A word whose new spelling would meet another word in some file stays, and a line `stays:` tells of it.
"""

import collections
import os
import re
import sys

WORD = re.compile(r"""[^\s(){}.;,@"«»\[\]`]+""")
CAMEL = re.compile(r"(?<=[a-z0-9])[A-Z]")
OWN = re.compile(r"[a-z][A-Za-z0-9_]*(?:-[A-Za-z0-9_]+)*'*")
DECLARED = re.compile(r"(?m)^ *(?:(?:pub|abbrev|unfoldable|pattern) +)*([^\s(){}.;,]+)(?: \{[^{}\n]*\})* :")
# The library's functions, besides those of specs/, between whose names a dash stays.
LIBRARY = set(
    "length take drop map append get_or set replicate sum eq le lt cons nil push insert true false cond zero suc"
    " add sub mul div mod eqb leb ltb not and or filter reverse last slice_index all any mem some none".split()
)

# Lemmas that port.py gave the spelling that their functions get here, and one local word.
LEMMAS = {
    "answer_at": "answer_at_lem",
    "at_path": "at_path_lem",
    "in_map": "in_map_lem",
    "is_digit": "is_digit_lem",
    "no_value": "no_value_lem",
    "record_of": "own_record",
    "text-of": "text_of_lem",
}


def lemmas_first(root):
    """Gives the lemmas of LEMMAS their names, where a word stands for the lemma: bare, and in proofs/."""
    words = "|".join(map(re.escape, LEMMAS))
    lemma = re.compile(rf"(?<![^\s(){{}},;])(?:{words})(?![^\s(){{}},;])")
    for path in files(root):
        if "/proofs/" in path and not is_goals(path):
            with open(path, encoding="utf-8") as f:
                text = f.read()
            new = lemma.sub(lambda m: LEMMAS[m[0]], text)
            if new != text:
                with open(path, "w", encoding="utf-8") as f:
                    f.write(new)


def files(root):
    for folder, dirs, names in os.walk(os.path.join(root, "crates")):
        dirs[:] = sorted(d for d in dirs if d not in ("out", "target", "must-fail"))
        for name in sorted(names):
            if name.endswith((".antt", ".rt")):
                yield os.path.join(folder, name)


def kept_by_the_kit(kit):
    """Each word of the library's own antt files."""
    found = set()
    for part in ("std", "std_alloc", "std_heap", "std_io", "std_collections", "core", "logic"):
        for folder, _, names in os.walk(os.path.join(kit, "rattle", part)):
            for name in names:
                if name.endswith(".antt"):
                    with open(os.path.join(folder, name), encoding="utf-8", errors="replace") as f:
                        found.update(WORD.findall(f.read()))
    return found


def is_goals(path):
    """Whether a file answers a function's goals, whose names Rattle makes."""
    inside = path.split("/proofs/", 1)
    return len(inside) == 2 and "/" in inside[1]


def parts(word, functions):
    """The new spelling: parts joined by a dash where both are names, and by `_` elsewhere."""
    tail = word[len(word.rstrip("'")) :]
    steps = word.rstrip("'").split("-")
    new = CAMEL.sub(lambda m: "_" + m[0].lower(), steps[0]) if steps[0][0].islower() else steps[0]
    for before, step in zip(steps, steps[1:]):
        both = (before in functions or before[0].isupper()) and (step in functions or step[0].isupper())
        spelt = step if step[0].isupper() else CAMEL.sub(lambda m: "_" + m[0].lower(), step)
        new += ("-" if both else "_") + spelt
    return new + tail


def bare(path, text):
    """The words of a file that can stand for a definition: no comment, no member behind a dot, no Rust function."""
    dash = "//" if path.endswith(".rt") else "--"
    text = re.sub(rf"(?m)(^|\s){dash}.*$", "", text)
    if path.endswith(".rt"):
        text = re.sub(r"(?m)^\s*(?:pub )?use [^;]*;", "", text)
        text = re.sub(r"\b[a-z_0-9]+(?=\()", "", text)
    return set(WORD.findall(re.sub(r"\.[^\s(){}.;,@\"«»\[\]`]+", "", text)))


def table(root, kit):
    words = {}
    functions, made = set(LIBRARY), set()
    for path in files(root):
        with open(path, encoding="utf-8") as f:
            text = f.read()
        words[path] = bare(path, text)
        if path.endswith(".antt"):
            names = set(DECLARED.findall(text))
            if "/specs/" in path:
                functions |= {n for n in names if OWN.fullmatch(n) and "-" not in n}
            if is_goals(path):
                made |= {n for n in names if "-" in n}
    library = kept_by_the_kit(kit)
    turned = {}
    for path, found in words.items():
        if path.endswith(".antt"):
            for word in found:
                own = OWN.fullmatch(word) and word not in library and word not in made
                dashed = "-" in word and not is_goals(path)
                if own and (CAMEL.search(word) or dashed):
                    new = parts(word, functions)
                    if new != word:
                        turned[word] = new
    return turned, words


def apart(turned):
    """A lemma that would have the name of a function ends in `_lem`."""
    back = collections.defaultdict(set)
    for old, new in turned.items():
        back[new].add(old)
    for new, olds in back.items():
        functions = {o for o in olds if CAMEL.search(o)}
        if functions and functions != olds:
            for old in olds - functions:
                turned[old] = new + "_lem"


def without_meetings(turned, words):
    """Drops the words that would meet another in some file."""
    stays = {}
    for path, found in words.items():
        back = collections.defaultdict(set)
        for word in found:
            back[turned.get(word, word)].add(word)
        for new, olds in back.items():
            if len(olds) > 1:
                for old in olds & set(turned):
                    stays[old] = (new, path)
    return {o: n for o, n in turned.items() if o not in stays}, stays


def main(argv):
    root = os.getcwd()
    if argv not in ([], ["--list"]) or not os.path.isdir(os.path.join(root, "crates")):
        print(__doc__)
        return 2
    kit = os.path.dirname(os.popen("rt doc").read().strip())
    if not argv:
        lemmas_first(root)
    turned, words = table(root, kit)
    apart(turned)
    turned, stays = without_meetings(turned, words)
    for old, (new, path) in sorted(stays.items()):
        print(f"stays: {old}, since {new} is in {os.path.relpath(path, root)}")
    if argv:
        for old, new in sorted(turned.items()):
            print(old, new)
        return 0
    changed = 0
    for path in words:
        with open(path, encoding="utf-8") as f:
            text = f.read()
        new = WORD.sub(lambda m: turned.get(m[0], m[0]), text)
        if new != text:
            changed += 1
            with open(path, "w", encoding="utf-8") as f:
                f.write(new)
    print(f"respell: {len(turned)} words, {changed} files")
    return 0


if __name__ == "__main__":
    raise SystemExit(main(sys.argv[1:]))
