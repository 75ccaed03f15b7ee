#!/usr/bin/env python3
"""Spells the repository's own definitions and lemmas in snake case, once, after port.py.

usage: tools/respell.py            in the repository, on the tree that port.py left

A definition, lemma, field or constructor that a file of specs/ or proofs/ declares, and whose name is in camel case with a small
first letter or has dashes, gets its words joined by underscores, in every .antt file, in the clauses and ghost imports of .rt files,
in must-fail edits and in the documents' code spans. Where a lemma would get the name of a definition, or the name of something that
its files import from the kit, it gets _lem behind it. Names of src/, of what Rattle makes, of types and modules stay. It prints
each name that falls together with another one in a file.
"""

import collections
import glob
import re
import sys

MARKS = r"(?:abbrev|unfoldable|pub|record|data|pattern)"
DECLARED = re.compile(rf"^ *(?:{MARKS} )*([^\s:(){{}}.,;=]+)(?: \{{[^{{}}]*\}})* :(?= |$)|^ *(?:{MARKS} )+([^\s:(){{}}.,;=]+)(?: [({{:]|$)")
WORD = re.compile(r"""[^\s(){}.;,@"«»`]+""")
IMPORT = re.compile(r"(?:^|\n)(?:pub )?(?:ghost )?use ([^\s;{]+?)\.\{([^}]*)\}")
OWN = re.compile(r"Rattle\.(?!std\.|core\.)\w+\.")
SPAN = re.compile(r"(`+)(?:[^\n]|\n(?!\s*\n))*?\1")
CLAUSE = re.compile(r"^(?:    )*(?:pub )?(?:requires|ensures|ghost)\b.*", re.M)


def read(path):
    with open(path, encoding="utf-8") as file:
        return file.read()


def snake(name):
    words = re.sub(r"(?<=[A-Za-z0-9])[A-Z]", lambda m: "_" + m[0].lower(), name) if name[0].islower() else name
    return words.replace("-", "_")


def table():
    """The new name of each name, and the files that declare it."""
    where = collections.defaultdict(set)
    for path in sorted(glob.glob("crates/*/specs/*.antt") + glob.glob("crates/*/proofs/*.antt")):
        for line in read(path).splitlines():
            if m := DECLARED.match(line):
                where[m[1] or m[2]].add(path)
    # Constructors and local names in camel case, too: the kit has none.
    for path in sorted(glob.glob("crates/**/*.antt", recursive=True)):
        for name in re.findall(r"(?<![\w'-])[a-z][a-z0-9_]*[A-Z][\w']*", read(path)):
            where[name].add(path)
    of_kit = set()
    for path in glob.glob("crates/**/*.antt", recursive=True) + glob.glob("crates/*/src/**/*.rt", recursive=True):
        for module, names in IMPORT.findall(read(path)):
            if not OWN.match(module):
                of_kit |= {it.strip().split(" as ")[0] for it in names.split(",")}
    new = {}
    for name in where:
        if "-" in name and name[0].isupper():
            new[name] = "".join(it[0].upper() + it[1:] for it in name.split("-"))
        elif "-" in name or name[0].islower() and re.search(r"[a-z0-9][A-Z]", name):
            new[name] = snake(name)
    groups = collections.defaultdict(set)
    for name in where:
        groups[new.get(name, name)].add(name)
    for name, olds in groups.items():
        if len(olds) > 1 or (name in of_kit and olds & set(new)):
            # The definition keeps the name: it is the one in camel case, or the one that port.py made of one in camel case.
            keeps = [old for old in olds if re.search(r"[a-z0-9][A-Z]", old)] or [name]
            for old in olds:
                if old not in keeps:
                    new[old] = name + "_lem"
    new = {old: it for old, it in new.items() if old not in of_kit}
    return new, where


def respell(text, new, behind_dots=True):
    def word(m):
        old = m[0]
        if old not in new:
            return old
        if m.start() and text[m.start() - 1] == "." and "_" in old and "-" not in old:
            return old  # what Rattle makes of the source's own name
        return new[old]

    return WORD.sub(word, text)


def main():
    new, where = table()
    together = []
    paths = glob.glob("crates/**/*.antt", recursive=True)
    for path in sorted(paths):
        text = read(path)
        words = set(WORD.findall(text))
        for old in sorted(words & set(new)):
            if new[old] in words and new[old] not in new:
                together.append(f"{path}: {old} becomes {new[old]}, which stands there")
        turned = respell(text, new)
        if turned != text:
            with open(path, "w", encoding="utf-8") as file:
                file.write(turned)
    camel = {old: it for old, it in new.items() if re.search(r"[a-z0-9][A-Z]", old)}
    for path in sorted(glob.glob("crates/*/src/**/*.rt", recursive=True) + glob.glob("crates/*/must-fail/*.edit")):
        text = read(path)
        words = set(WORD.findall(text))
        for old in sorted(words & set(camel)):
            if re.search(rf"(?<![\w.]){re.escape(camel[old])}(?![\w-])", text):
                together.append(f"{path}: {old} becomes {camel[old]}, which stands there")
        turned = WORD.sub(lambda m: camel.get(m[0], m[0]), text)
        if turned != text:
            with open(path, "w", encoding="utf-8") as file:
                file.write(turned)
    # The documents have the names as they were before port.py. Names that got _lem are there those of functions and of script words.
    written = {old: it for old, it in new.items() if ("-" in old or old in camel) and not it.endswith("_lem")}

    def span(m):
        return WORD.sub(lambda w: written.get(w[0]) or (snake(w[0]) if snake(w[0]) in where and snake(w[0]) not in new and w[0] not in new else w[0]), m[0])

    for path in ["README.md", *glob.glob("docs/**/*.md", recursive=True), *glob.glob("*/README.md")]:
        text = read(path)
        turned = SPAN.sub(span, text)
        if turned != text:
            with open(path, "w", encoding="utf-8") as file:
                file.write(turned)
    print("\n".join(together))
    print(f"{len(new)} names")
    if "--table" in sys.argv:
        for old in sorted(new):
            print(f"{old}\t{new[old]}")


if __name__ == "__main__":
    main()
