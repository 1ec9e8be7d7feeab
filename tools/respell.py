#!/usr/bin/env python3
"""Brings the names that this repository's specs/ and proofs/ declare to snake case; port.py did so only for those that the library has too.

usage: respell.py    at the top of the repository, once, after port.py

A name is turned where it has a dash or a hump and begins with a small letter: `findOr` becomes `find_or`, `any-same` becomes `any_same`.
Where a definition and a lemma would fall together, the lemma's name ends in _lem.
Types, modules, functions of src/ and their parameters keep their names; so do names that the library declares, and the labels that Rattle makes of the code.
With --look it writes nothing, and lists the names that would meet another.
"""

import os
import re
import sys

# Lemmas in snake case already, whose name a definition takes: they get the ending of a lemma that would have its function's name.
LEMMAS = ["cleared_at", "entry_in", "level_in", "name_in", "top_frame", "up_in"]
# Lemmas whose plain spelling a definition has already.
ENDING = ["name-of", "no-word", "page-of", "part-at", "size-at", "word-at", "word-of"]

# Files beside crates/ that cite the names.
BESIDE = ["README.md", "docs", ".ci/rows", ".ci/rows.awk", ".ci/try-edit", "hosts/check", "hosts/tables"]

WORD = re.compile(r"[^\s(){}\[\].;,@\"«»`:\\]+(?:'(?=[\s(){}.;,]|$))?")
HUMP = re.compile(r"(?<=[a-z0-9₂₀₁])[A-Z]")
USE = re.compile(r"^\s*(?:ghost )?use ([\w.'+-]+)\.\{([^}]*)\}", re.M)
LIBRARY = re.compile(r"^(Rattle\.(std|core|std_\w+)|mathlib|native|lib|borrow|Prim|core)\.")


def files(top, ends):
    for folder, dirs, names in os.walk(top):
        dirs[:] = sorted(d for d in dirs if d not in ("out", "target", ".git"))
        for n in sorted(names):
            if n.endswith(ends):
                yield os.path.join(folder, n)


def snake(name):
    return HUMP.sub(lambda m: "_" + m[0].lower(), name).replace("-", "_")


def odd(word):
    return bool(re.match(r"[a-z]", word)) and (bool(HUMP.search(word)) or bool(re.search(r"[^\W_]-[^\W_]|[₀₁₂≢≡']-|-[₀₁₂≢≡]", word)))


def plain(text):
    return re.sub(r"--.*", " ", text)


def main():
    look = "--look" in sys.argv
    texts = {}
    for p in files("crates", (".antt", ".rt", ".edit")):
        with open(p, encoding="utf-8") as f:
            texts[p] = f.read()
    of_library = set()
    for p, t in texts.items():
        for path, names in USE.findall(t):
            if LIBRARY.match(path + "."):
                of_library |= set(re.findall(r"[^\s,{}]+", names))
    of_library -= {"as"}
    walk = re.compile(r"/proofs/[^/]+/(Proof|Invariants|Answers)\.antt$|/proofs/[^/]+/[^/]+/")
    own = set()
    for p, t in texts.items():
        if not p.endswith(".antt") or walk.search(p):
            continue
        t = plain(t)
        t = re.sub(r"^\s*use .*$", " ", t, flags=re.M)
        # what stands behind a dot may be a label of the code
        bare = re.sub(r"(?<=[\w')\]])\.(?=\w)[^\s(){},;]*", " ", t)
        own |= {w for w in WORD.findall(bare) if odd(w)}
    own = {w for w in own if w not in of_library}
    table = {w: snake(w) for w in own}
    humps = {snake(w) for w in own if "-" not in w}
    for w in own:
        if "-" in w and snake(w) in humps or w in ENDING:
            table[w] = snake(w) + "_lem"
    for w in LEMMAS:
        table[w] = w + "_lem"
    every = set()
    for p, t in texts.items():
        if not p.endswith(".edit"):
            every |= set(WORD.findall(plain(t) if p.endswith(".antt") else re.sub(r"//.*", " ", t)))
    back = {}
    for old, new in table.items():
        back.setdefault(new, []).append(old)
    if look:
        for new, olds in sorted(back.items()):
            if len(olds) > 1:
                print("two:", new, olds)
            elif new in every and new not in LEMMAS:
                print("meets:", olds[0], new, "library" if new in of_library else "")
        print(len(table), "names,", file=sys.stderr)
        return

    def turned(text, dotted):
        def one(m):
            w = m[0]
            if w not in table:
                return w
            before = text[max(0, m.start() - 1) : m.start()]
            if before == "." and not dotted and "-" in w:
                return w
            return table[w]

        return WORD.sub(one, text)

    # a page may cite a name that port.py has turned in the crates
    known = every | set(table.values())
    cited = lambda w: table.get(w) or (snake(w) if odd(w) and w not in every and snake(w) in known else w)
    for p, t in texts.items():
        new = turned(t, not walk.search(p))
        if new != t:
            with open(p, "w", encoding="utf-8") as f:
                f.write(new)
    for top in BESIDE:
        for p in [top] if os.path.isfile(top) else list(files(top, (".md",))):
            with open(p, encoding="utf-8") as f:
                t = f.read()
            if p.endswith(".md"):
                new = re.sub(r"`[^`\n]+`", lambda m: WORD.sub(lambda n: cited(n[0]), m[0]), t)
            else:
                new = re.sub(r"[A-Za-z][\w-]*", lambda m: table.get(m[0], m[0]), t)
            if new != t:
                with open(p, "w", encoding="utf-8") as f:
                    f.write(new)
    with open("/dev/stdout", "w") as f:
        for old, new in sorted(table.items()):
            print(old, new, file=f)


main()
