#!/usr/bin/env python3
"""snake_names.py [FOLDER [--list]]: spells the repository's own definitions and lemmas as Rattle spells words.

A word joined by dashes becomes snake case, and one that begins with a capital (a fact or a type) camel case:
`passed-at` is `passed_at`, `Same-below` is `SameBelow`. What is renamed is what the files of specs/ and proofs/
below FOLDER (this folder, if none is named) define themselves: definitions, lemmas, fields and constructors.
The goals that the checker names, and the library's own lemmas, keep their dashes. A word that would have its
function's name ends in `_lem`.

It was run once, behind the toolchain's own script, when the repository came to the Rattle that README names. It stops
before it writes anything where two of the renamed would fall together, and prints each new name that stood already. With --list it prints the new names and writes nothing.
"""
import os
import re
import sys

WORD = re.compile(r"(?<![\w'\-])[A-Za-z][\w'\-]*")
DECLARED = re.compile(r"^\s*((?:(?:abbrev|unfoldable|pub|record|data|ruleset)\s+)*)([A-Za-z][\w'\-]*)\b[^:=]*:\s*(\S*)")
# fields that the checker makes, which two lemmas are named for
KEPT = {"late-is", "upper-is"}
FUNCTION = re.compile(r"\bfn (\w+)")
IMPORTED = re.compile(r"\buse\s+Rattle\.std\.[\w.+]*?\{([^}]*)\}")


def files(root):
    for folder, dirs, names in os.walk(os.path.join(root, "crates")):
        dirs[:] = sorted(d for d in dirs if d != "out")
        for name in sorted(names):
            if name.endswith((".antt", ".rt")):
                yield os.path.join(folder, name)


def crate(path):
    return path.split("crates" + os.sep)[1].split(os.sep)[0]


def spelled(word, functions):
    parts = word.split("-")
    if word[0].isupper():
        return "".join(p[:1].upper() + p[1:] for p in parts)
    name = "_".join(parts)
    return name + "_lem" if name in functions else name


def main():
    root = sys.argv[1] if len(sys.argv) > 1 else "."
    text = {p: open(p, encoding="utf-8").read() for p in files(root)}
    own, library, words, functions = {}, set(), set(), {}
    for path, body in text.items():
        words |= set(WORD.findall(body))
        for names in IMPORTED.findall(body):
            library |= {n.strip().split(" ")[0] for n in names.split(",")}
        if not path.endswith(".antt"):
            functions.setdefault(crate(path), set()).update(FUNCTION.findall(body))
            continue
        for line in body.split("\n"):
            found = DECLARED.match(line)
            if found and "-" in found.group(2) and not found.group(3).startswith("goal."):
                own[found.group(2)] = crate(path)
    both = sorted(set(own) & library)
    new = {w: spelled(w, functions[own[w]]) for w in sorted(own) if w not in KEPT and w not in library}
    clashes = [f"{w} and {n}" for w, n in new.items() if n in words]
    fall = [n for n in set(new.values()) if list(new.values()).count(n) > 1]
    if "--list" in sys.argv:
        for w, n in new.items():
            print(w, n)
    if both:
        print("the library's as well, left as they are: " + ", ".join(both))
    if fall:
        sys.exit("these would fall together: " + ", ".join(sorted(fall)))
    if clashes:
        print("stand there already: " + ", ".join(clashes))
    if "--list" in sys.argv:
        return
    for path, body in text.items():
        turned = WORD.sub(lambda m: new.get(m.group(0), m.group(0)), body)
        if turned != body:
            open(path, "w", encoding="utf-8").write(turned)


main()
