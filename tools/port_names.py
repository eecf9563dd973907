#!/usr/bin/env python3
"""Brings this repository's own definitions and lemmas to the spelling of today's Rattle: words in snake case.

usage: tools/port_names.py            in the repository, once, on what port.py made of it

A definition, a field, a constructor or a lemma of specs/ and proofs/ whose name begins with a small letter and has a capital or a
dash is spelled in snake case, wherever it is named: in specs/, proofs/, the clauses of src/, must-fail/ and the pages. A lemma that
would then have the name of a definition, of a function or of something of the library gets _lem. A name that begins with a capital
stays: a type, a fact, an instruction by its name in D04, or a lemma of one of these. Names of the library stay, and what a proof
binds for itself. Nothing else is changed.
"""

import os
import re
import subprocess
import sys

DEFINES = re.compile(r"^\s*(?:(?:unfoldable|abbrev|pub|mutual)\s+)*((?:[^\s(){}\[\];,.:]+\s+)+)(?:\{[^}]*\}\s*)*:(?:\s|$)")
WORD = re.compile(r"[^\s(){}\[\];,.«»\\|\"`:@]+")
KEYWORDS = {"unfoldable", "abbrev", "pub", "mutual", "data", "record", "module", "let", "λ"}
def snake(name):
    name = re.sub(r"([a-z0-9])([A-Z])", r"\1_\2", name.replace("-", "_"))
    return name.lower()


def old_fashioned(name):
    return bool(re.match(r"[a-z]", name)) and bool(re.search(r"[A-Z-]", name)) and bool(re.fullmatch(r"[A-Za-z0-9'-]+(?:_[A-Za-z0-9'-]+)*", name))


def files(root, *folders, ends):
    for folder in folders:
        for where, dirs, names in os.walk(os.path.join(root, folder)):
            dirs[:] = sorted(d for d in dirs if d not in ("out", "target", ".git"))
            for name in sorted(names):
                if name.endswith(ends):
                    yield os.path.join(where, name)


def read(path):
    with open(path, encoding="utf-8") as f:
        return f.read()


def defined(root):
    """The names that the files of specs/ and proofs/ define, not those of one function's proof."""
    names = set()
    for path in files(root, "crates", ends=".antt"):
        parts = os.path.relpath(path, root).split(os.sep)
        if parts[2] not in ("specs", "proofs") or len(parts) != 4:
            continue
        for line in read(path).splitlines():
            m = DEFINES.match(line.split("--")[0] if line.lstrip().startswith("--") else line)
            if m:
                names.update(w for w in m.group(1).split() if w not in KEYWORDS)
    return names


def functions(root):
    return {m for path in files(root, "crates", ends=".rt") for m in re.findall(r"\bfn (\w+)", read(path))}


def imported(root):
    """What the files import that isn't this repository's own."""
    own = {os.path.basename(d) for d in os.listdir(os.path.join(root, "crates"))}
    found = set()
    for path in files(root, "crates", ends=(".antt", ".rt")):
        for module, items in re.findall(r"(?m)^\s*(?:ghost )?use ([\w.+]+)\.\{([^}]*)\}", read(path)):
            parts = module.split(".")
            if parts[0] != "Rattle" or parts[1] not in own:
                found.update(re.split(r"\s*,\s*", items.strip()))
    return found


def spelled(root):
    mine = defined(root)
    camel = {n: snake(n) for n in mine if old_fashioned(n) and "-" not in n}
    names = dict(camel)
    taken = set(camel.values())
    for n in sorted(mine):
        if n in taken and not old_fashioned(n):
            names[n] = n + "_lem"
    taken |= mine | functions(root) | imported(root)
    for n in sorted(mine):
        if old_fashioned(n) and "-" in n:
            names[n] = snake(n) + ("_lem" if snake(n) in taken else "")
    return names


def turned(text, names, quoted=False):
    def one(m):
        # toFloat.i and toInt.f are primitives, by their names in D04.
        primitive = re.match(r"\.[if]\b", m.string[m.end() :])
        return m.group(0) if primitive else names.get(m.group(0), m.group(0))

    if not quoted:
        # port.py spelled the primitive toInt.f as the definition where a comment quotes it.
        return WORD.sub(one, text).replace("to_int.f", "toInt.f")
    return re.sub(r"`[^`\n]*`", lambda m: WORD.sub(one, m.group(0)), text)


def main():
    root = subprocess.run(["git", "rev-parse", "--show-toplevel"], capture_output=True, text=True, check=True).stdout.strip()
    names = spelled(root)
    news = sorted(names.values())
    twice = [n for n in set(news) if news.count(n) > 1 or (n in defined(root) and n not in names)]
    if twice:
        print("these fall together:", " ".join(twice))
        return 1
    if "--show" in sys.argv:
        print("\n".join(f"{o} {n}" for o, n in sorted(names.items())))
        return 0
    changed = 0
    kept = {o: n for o, n in names.items() if o not in functions(root)}
    for path in files(root, "crates", ends=(".antt", ".rt", ".edit")):
        text = read(path)
        new = turned(text, kept if path.endswith(".rt") else names)
        if new != text:
            changed += 1
            with open(path, "w", encoding="utf-8") as f:
                f.write(new)
    for path in [os.path.join(root, "README.md"), *files(root, "docs", "tools", "examples", ends=".md")]:
        text = read(path)
        new = turned(text, names, quoted=True)
        if new != text:
            changed += 1
            with open(path, "w", encoding="utf-8") as f:
                f.write(new)
    print(f"{len(names)} names, {changed} files")
    return 0


if __name__ == "__main__":
    raise SystemExit(main())
