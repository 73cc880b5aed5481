#!/usr/bin/env python3
"""Spells the repository's own definitions and lemmas in snake case: `planLine` and `plan-line` become `plan_line`.

usage: spell_names.py [--check]      at the top of the repository, once, behind the toolchain's own scripts

Read are the names that crates/*/specs and crates/*/proofs declare; turned is every place that cites one, in those files, in the
lines of crates/*/src that are no comment and in those of crates/*/must-fail. A name that a file imports from a library stays
there; so does a name behind `tie.`, `goal.` or `c.`, which the toolchain makes of the code. A lemma that would get the name of a
definition gets `_lem` behind it. --check writes nothing.
"""

import collections
import glob
import re
import sys

NAME = r"[^\s(){}\[\];,.\"λ:«»◌]+"
DECLARED = re.compile(rf"^( *)(?:(?:abbrev|unfoldable|pub|record|data|instance) +)*({NAME})(?: +[({{].*?[)}}])* +: ")
USE = re.compile(r"use ([^\s{;]+)\.\{([^}]*)\}")
LIBRARY = re.compile(r"(?!Rattle\.)|Rattle\.(std|core|io|libc|os)\.")
MADE = re.compile(r"(?<!\w)(?:tie|goal|[cdewg])\.(?:[^\s(){}\[\];,]*\.)?$")
TOKEN = re.compile(rf"(?<![^\s(){{}}\[\];,.\"λ:«»]){NAME}")


def snake(name):
    if re.fullmatch(r"[a-zμ+][A-Za-z0-9]*[a-z0-9][A-Z][A-Za-z0-9]*([-_].+)?", name):
        name = re.sub(r"(?<=[a-z0-9])[A-Z]", lambda m: "_" + m[0].lower(), name)
    return re.sub(r"(?<=[\w?])-(?=\w)", "_", name)


def files():
    found = []
    for part in ("specs/**/*.antt", "proofs/**/*.antt", "src/**/*.rt", "must-fail/*.edit"):
        found += glob.glob(f"crates/*/{part}", recursive=True)
    return sorted(found)


def declared(texts):
    names = collections.Counter()
    for path, text in texts.items():
        if not path.endswith(".antt"):
            continue
        for line in text.splitlines():
            m = DECLARED.match(line)
            if m:
                names[m[2]] += 1
    return names


def local(texts):
    """The names with a dash that files of lemmas bind and no line declares: arguments, and parts that a `where` lists without a type."""
    names = set()
    for path, text in texts.items():
        if path.endswith(".antt") and not path.endswith("/Proof.antt"):
            bare = re.sub(r"(?m)--.*|^use .*", "", text)
            names |= {it for it in TOKEN.findall(bare) if re.search(r"[a-z]-[a-z]", it)} - imported(text)
            names.update(re.findall(r" as ([a-z]+[A-Z]\w*)", text))
    return names


def imported(text):
    """The names that a file takes from a library."""
    names = set()
    for m in USE.finditer(text):
        if LIBRARY.match(m[1]):
            for it in m[2].split(","):
                names.update(it.split(" as ")[-1:])
    return {it.strip() for it in names}


def turned(path, text, table, kept):
    def one(m):
        word = m[0]
        if word not in table or word in kept:
            return word
        before = m.string[max(0, m.start() - 200) : m.start()]
        if path.endswith(".antt") and MADE.search(before):
            return word
        return table[word]

    if path.endswith(".rt"):
        return "\n".join(
            line if line.lstrip().startswith("//") else TOKEN.sub(one, line) for line in text.split("\n")
        )
    return TOKEN.sub(one, text)


def main(words):
    texts = {}
    for path in files():
        with open(path, encoding="utf-8") as it:
            texts[path] = it.read()
    names = declared(texts)
    names.update(local(texts))
    table = {it: snake(it) for it in names if snake(it) != it}
    words_of = {path: set(TOKEN.findall(re.sub(r"--.*", "", text))) for path, text in texts.items() if path.endswith(".antt")}
    plain = {it for it in names if snake(it) == it} | {new for old, new in table.items() if "-" not in old}
    for old in [it for it in table if "-" in it]:
        if table[old] in plain or any({old, table[old]} <= found for found in words_of.values()):
            table[old] += "_lem"
    # A lemma that one file alone has, spelled as a definition is from now on.
    alone = {}
    for path, found in words_of.items():
        for old in found & table.keys():
            if "-" not in old and table[old] in declared({path: texts[path]}):
                alone[path] = {table[old]: table[old] + "_lem"}
    for path, text in texts.items():
        new = turned(path, text, table | alone.get(path, {}), imported(text))
        if new != text and "--check" not in words:
            with open(path, "w", encoding="utf-8") as it:
                it.write(new)
    print(f"{len(table)} names turned")
    return 0


if __name__ == "__main__":
    raise SystemExit(main(sys.argv[1:]))
