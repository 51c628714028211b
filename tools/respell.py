#!/usr/bin/env python3
"""Turns this repository's own names to one spelling: words of lower case joined by `_`.

    tools/respell.py            at the top of the repository, once
    tools/respell.py --list     only lists each name, old and new, and what falls together

Definitions, lemmas, fields, constructors and variables of specs/ and proofs/ are turned wherever they stand: in those files, in the clauses, ghost imports and
back-quoted words of comments in src/, in must-fail edits and in back-quoted words of the pages. Types and modules keep theirs, so do functions and fields of src/,
names of the library and names that the check makes. A dash stays before a sign or a capital, where it joins two names.
"""

import collections
import os
import re
import sys

TOKEN = re.compile(r"[^\s(){}\[\].,;:λ∀→↦=\"`⟨⟩|@]+")


def respelt(name):
    if re.match(r"[a-z]", name):
        name = re.sub(r"(?<=[a-z0-9])(?=[A-Z])", "_", name)
        name = re.sub(r"(?<=[a-z0-9_-])[A-Z]", lambda m: m.group(0).lower(), name)
    name = re.sub(r"(?<=[a-z])(?=[ℤℕ])", "_", name)
    name = re.sub(r"(?<=[^-])-(?=[a-z0-9])", "_", name)
    return name.replace("′", "'")


def spellings(names, kept):
    """Each name and its new one. A lemma that would have its definition's name gets `_lem`."""
    new = {n: respelt(n) for n in names}
    firsts = {respelt(n) for n in names if "-" not in n} | kept
    return {n: s + "_lem" if "-" in n and s in firsts else s for n, s in new.items() if s != n}


def antt_files(root):
    for folder, dirs, files in os.walk(root):
        dirs[:] = sorted(d for d in dirs if d not in ("out", ".git"))
        for f in sorted(files):
            if f.endswith(".antt"):
                yield os.path.join(folder, f)


def of_function(path):
    """A file of one function's proof: what it declares are names that the check asks for."""
    parts = path.split(os.sep)
    return len(parts) > 4 and parts[2] == "proofs" if parts[0] == "crates" else False


def without_comments(text):
    return re.sub(r"(?m)(^|\s)--(\s.*)?$", r"\1", text)


def declared(text):
    for m in re.finditer(r"(?m)^\s*(?:pub |abbrev |unfoldable |data |record |field )*([^\s(){}\[\].,;:]+)\s+:(?=\s)", text):
        yield m.group(1)
    for m in re.finditer(r"[({]((?:[^\s(){}\[\].,;:→]+\s+)+):\s", text):
        yield from m.group(1).split()
    # what a λ, a let or a pattern binds
    for m in re.finditer(r"λ ((?:[^\s(){}\[\].,;:→]+\s*)+)\.", text):
        yield from m.group(1).split()
    for m in re.finditer(r"\blet ([^\s(){}\[\].,;:→=]+) [:=]", text):
        yield m.group(1)


def foreign(text):
    for m in re.finditer(r"use ([\w.]+)\.\{([^}]*)\}", text):
        if not m.group(1).startswith("Rattle.") or m.group(1).startswith("Rattle.std."):
            for n in m.group(2).split(","):
                yield n.strip().split(" as ")[0]


def table(files):
    names, kept = set(), set()
    for path in files:
        with open(path, encoding="utf-8") as f:
            text = without_comments(f.read())
        kept.update(foreign(text))
        names.update(n for n in declared(text) if not of_function(path) or not made(n, text))
    return spellings(names - kept, kept)


def made(name, text):
    """In a proof of a function: a name of the check's."""
    return name.endswith("-spec") or re.search(r"(?m)^(?:pub |abbrev )*" + re.escape(name) + r" : (?:tie|goal|given)\.", text) is not None


# A lemma in a `where` that would have the name of the definition that it is about.
APART = {os.path.join("crates", "demands", "proofs", "Demands.antt"): {"map_row": "map_row_lem"}}


def specs_of_functions(path, text):
    """The proof of the function `f` is `f_spec`."""
    parts = path.split(os.sep)
    if not of_function(path) or parts[-1] != "Proof.antt":
        return text
    f = parts[-2]
    return re.sub(r"(?<![\w-])" + re.escape(f.replace("_", "-")) + r"-spec(?![\w-])", f + "_spec", text)


def turned(text, names):
    return TOKEN.sub(lambda m: names.get(m.group(0), m.group(0)), text)


def quoted(text, names):
    return re.sub(r"`[^`\n]+`", lambda m: turned(m.group(0), names), text)


def turned_antt(text, names):
    out = []
    for line in text.split("\n"):
        m = re.search(r"(^|\s)--(\s|$)", line)
        code, comment = (line[: m.start()], line[m.start():]) if m else (line, "")
        out.append(turned(code, names) + quoted(comment, names))
    return "\n".join(out)


def of_proof(text, names):
    """In a proof of a function what follows a dot may be a step, named after the function that it calls."""
    steps = {n: respelt(n) if "-" in n else s for n, s in names.items()}
    parts = re.split(r"(\.[^\s(){}\[\].,;:]+)", text)
    return "".join(turned(p, steps) if i % 2 else turned_antt(p, names) for i, p in enumerate(parts))


def turned_rt(text, names):
    out = []
    for line in text.split("\n"):
        m = re.search(r"(^|\s)//", line)
        code, comment = (line[: m.start()], line[m.start():]) if m else (line, "")
        out.append((turned(code, names) if '"' not in code else code) + quoted(comment, names))
    return "\n".join(out)


# Words that stand in edits, as the library and the port's first script spell them now.
WORDS = {
    "natAbs": "nat_abs", "ltZ": "lt_z", "leZ": "le_z", "getD": "get_or", "isZero": "is_zero", "byteAt": "byte_at", "orZero": "or_zero", "partCount": "part_count",
    "_+_": "◌+◌",
}


def turned_edit(text, names):
    if not re.search(r"(?m)^file: (specs|proofs)/", text):
        return turned_rt(text, WORDS | names)
    text = turned_antt(text, WORDS | names)
    text = re.sub(r"(?<=[\w)]) \.(?=[a-z])", ".", text)
    return re.sub(r"\(([a-z]\w*(?:\.\w+)+)\)", r"\1", text)


def pages():
    for folder, dirs, files in os.walk("."):
        dirs[:] = sorted(d for d in dirs if d not in ("out", ".git", "target"))
        for f in sorted(files):
            if f.endswith(".md"):
                yield os.path.join(folder, f)


def falls_together(names):
    back = collections.defaultdict(set)
    for old, new in names.items():
        back[new].add(old)
    for path in list(antt_files("crates")) + sources():
        with open(path, encoding="utf-8") as f:
            text = f.read()
        tokens = set(TOKEN.findall(without_comments(text) if path.endswith(".antt") else re.sub(r"//.*", "", text)))
        for new in sorted({names[t] for t in tokens if t in names}):
            here = (back[new] | {new}) & tokens
            if len(here) > 1:
                yield path, new, sorted(here)


def sources():
    return [os.path.join(d, f) for d, _, fs in os.walk("crates") if "/out" not in d for f in sorted(fs) if f.endswith(".rt")]


def rewrite(path, how, names):
    with open(path, encoding="utf-8") as f:
        old = f.read()
    new = how(old, names)
    if new != old:
        with open(path, "w", encoding="utf-8") as f:
            f.write(new)


def main():
    files = list(antt_files("crates"))
    names = table(files)
    if "--list" in sys.argv:
        for old, new in names.items():
            print(old, new)
        for path, new, here in falls_together(names):
            print("together", path, new, *here)
        return
    for path in files:
        how = of_proof if of_function(path) else turned_antt
        rewrite(path, lambda text, names, path=path, how=how: specs_of_functions(path, how(text, names)), names | APART.get(path, {}))
    for path in sources():
        rewrite(path, turned_rt, names)
    for folder, _, fs in os.walk("crates"):
        for f in sorted(fs):
            if f.endswith(".edit"):
                rewrite(os.path.join(folder, f), turned_edit, names)
    for path in pages():
        rewrite(path, quoted, names)


main()
