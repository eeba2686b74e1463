#!/usr/bin/env python3
"""Brings the names of definitions, lemmas, fields and constructors to one spelling: words in snake case.

usage: tools/spell.py    at the top of the repository, once, after the language's own script has turned the files

It goes by text over the .antt and .rt files of crates/ and over README.md and docs/*.md. A name that would fall together with another one gets
a name of its own first. Functions of src/, exported C names, strings, inputs and outputs have no name that it turns.
"""

import glob
import re

NAME = re.compile(r"(?<![A-Za-z0-9_'◌₀-₉])[A-Za-z_][A-Za-z0-9_'◌₀-₉-]*")

# Names that would fall together, or that are no words of the definitions.
APART = {
    "byEqual": "by_equality",
    "is_same": "is_same-is",
    "least_on": "least_on-most",
    "read_at": "read_at-is",
    "says_same": "says_same-equal",
    "byATable": "by_a_table",
    "ofAField": "of_a_field",
    "one-constant": "by_one_constant",
    "not-zero": "is_not_zero",
    "get_d_map": "get_or-mapped",
    "get_d_past": "get_or-past",
}

# Each rename of APART whose old name is in snake case holds in one file alone.
ALONE = {
    "is_same": "crates/model/proofs/RulesDecide.antt",
    "least_on": "crates/model/proofs/Roots.antt",
    "read_at": "crates/verify/proofs/Blocks.antt",
    "says_same": "crates/model/proofs/RulesDecide.antt",
}

# Names that no definition has, in the pages.
FOREIGN = {"wolfSSL", "macOS", "rustc", "iOS"}


def snake(word):
    return re.sub(r"(?<=[a-z0-9'])([A-Z])", lambda m: "_" + m.group(1).lower(), word)


def is_camel(word):
    return word[0].islower() and re.search(r"[a-z0-9'][A-Z]", word) and word not in FOREIGN


def hyphened(text):
    """Names with a hyphen that a file of specs/ declares: fields, constructors and definitions."""
    return set(re.findall(r"(?m)^ *(?:abbrev |unfoldable |pub )*([a-z][a-z0-9_']*(?:-[a-z0-9_']+)+)(?: [a-z-]+)* :", text))


def read(path):
    with open(path, encoding="utf-8") as f:
        return f.read()


def main():
    antt = [f for f in sorted(glob.glob("crates/*/**/*.antt", recursive=True)) if "/out/" not in f]
    rt = [f for f in sorted(glob.glob("crates/*/**/*.rt", recursive=True)) if "/out/" not in f]
    pages = ["README.md"] + sorted(glob.glob("docs/**/*.md", recursive=True))
    pages = [p for p in pages if not p.startswith("docs/PORT")]
    texts = {f: read(f) for f in antt + rt + pages}
    declared = set()
    for f in antt:
        if "/specs/" in f:
            declared |= hyphened(texts[f])
    camel = {m.group(0) for f in antt for m in NAME.finditer(texts[f]) if is_camel(m.group(0))}

    def turned(path, m):
        word, before = m.group(0), m.string[: m.start()]
        if path.endswith(".rt") and "-" in word or word == "not-zero" and before.endswith("."):
            return word
        if word == "get_d_map" and before.endswith("ListN."):
            return "get_or-map"
        if word in APART and ALONE.get(word, path) == path:
            return APART[word]
        if word in camel:
            return snake(word)
        if path.endswith(".md") and is_camel(word) and re.search(r"(?<![a-z0-9_])" + re.escape(snake(word)) + r"(?![a-z0-9_])", known):
            return snake(word)
        if word in declared:
            return word.replace("-", "_")
        return word

    known = "\n".join(t for f, t in texts.items() if f in antt)
    known += "\n" + "\n".join(snake(w) for w in camel)
    for f, t in texts.items():
        new = NAME.sub(lambda m: turned(f, m), t)
        if new != t:
            with open(f, "w", encoding="utf-8") as out:
                out.write(new)


if __name__ == "__main__":
    main()
