#!/usr/bin/env python3
"""Respells this repository's own definitions and lemmas in snake case, after port.py: `bestPosition` and `best-position`, as one word.

usage: tools/respell.py            in the repository, once, after port.py

Words (functions, lemmas, fields, constructors) go to snake case; types and modules keep their capitals. Two names that would fall together
are listed in APART with the spelling that each gets. Functions of src/, exported C names, strings, inputs and outputs keep theirs.
"""

import os
import re
import sys

# names that would meet another one in snake case: a lemma beside the definition it is about, or a name of the library's
APART = {
    "packed-nodes": "packed_nodes_is",
    "packed-links": "packed_links_is",
    "raise-stores": "raise_stores_packed",
    "split-stores": "split_stores_packed",
    "tree-end": "tree_ends",
    "best-position": "best_position_is",
    "node-word": "node_word_kept",
    "rebuilt-packed": "rebuilt_packed_is",
    "search-report": "search_report_is",
    "by-ledger": "by_ledger_holds",
    "may-mark": "may_mark_is",
    "no-zero-edge": "no_zero_edge_exact",
    "matching-from": "matching_from_is",
    "chain-step": "chain_step_is",
    "side-at": "side_at_is",
    "bit-and": "bit_of_and",
    "bit-or": "bit_of_or",
    "bit-xor": "bit_of_xor",
    "width-of": "width_in_range",
    "treeShape": "shape_tree",
}
# hypotheses named by a letter and what they are about: no words
LETTERS = {"bB", "dF", "hF", "freeH", "leafP"}

WORD = re.compile(r"[A-Za-z\u0370-\u03ff_][A-Za-z0-9_'\u0370-\u03ff\u2080-\u2089-]*")
COMMENT = re.compile(r"(?:^|(?<=\s))--(?=\s|$).*")
USE = re.compile(r"(?m)^use ([^\s{]+?)\.?(?:\{([^}]*)\})?(?: as \S+)?$")
BEHIND = re.compile(r"(?<![\w.])[A-Z][\wᴰ]*\.([a-z][\w'-]*)")
FUNCTION = re.compile(r"/proofs/.+/")
FIELD = re.compile(r"^\s+pub (\S+)(?: \{[^{}]*\})* :")
DECLARED = re.compile(r"^\s*(?:\w+ )*?(\S+)(?: \{[^{}]*\})* :")


def snake(word):
    if word in APART:
        return APART[word]
    word = re.sub(r"(?<=[a-z0-9])([A-Z])", lambda m: "_" + m[1].lower(), word)
    return word.replace("-", "_")


def turns(word):
    return word not in LETTERS and word[0].islower() and ("-" in word or re.search(r"[a-z0-9][A-Z]", word) is not None)



def files(top, *endings):
    for folder, dirs, names in os.walk(top):
        dirs[:] = sorted(d for d in dirs if d not in ("out", ".git", "target"))
        for name in sorted(names):
            if name.endswith(endings):
                yield os.path.join(folder, name)


def read(path):
    with open(path, encoding="utf-8") as f:
        return f.read()


def code_of(line):
    return COMMENT.sub("", line)


def library_words(text, crates):
    """The names that a file takes from a library: the items of its `use` lines, and what stands behind a module's name."""
    found = set()
    for m in USE.finditer(text):
        steps = m[1].split(".")
        if steps[0] == "Rattle" and steps[1] in crates:
            continue
        found.update(WORD.findall(m[2] or ""))
    for m in BEHIND.finditer(text):
        found.add(m[1])
    return found


def own_words():
    """The words that the definitions and the lemmas declare, and those of them that are fields of records."""
    crates = set(os.listdir("crates"))
    words, fields, library, declared = set(), set(), set(), set()
    for path in files("crates", ".antt"):
        text = read(path)
        library |= library_words(text, crates)
        if FUNCTION.search(path):
            continue
        for line in text.splitlines():
            line = code_of(line)
            words.update(w for w in WORD.findall(line) if turns(w))
            name = DECLARED.match(line)
            if name:
                declared.add(name[1])
            field = FIELD.match(line)
            if field and turns(field[1]):
                fields.add(field[1])
    return words - (library - declared), fields


def turn_all(text, words):
    return WORD.sub(lambda m: snake(m[0]) if m[0] in words else m[0], text)


def turn_function(text, words, fields):
    """A function's proof: behind a dot stand names that the check makes, but for fields of our own."""
    def one(m):
        behind = text[m.start() - 1 : m.start()] == "."
        if m[0] in words and (not behind or m[0] in fields):
            return snake(m[0])
        return m[0]
    return WORD.sub(one, text)


def turn_page(text, words):
    return re.sub(r"`[^`\n]+`", lambda m: turn_all(m[0], words), text)


def main():
    words, fields = own_words()
    made = {}
    for w in words:
        made.setdefault(snake(w), set()).add(w)
    for s, from_words in sorted(made.items()):
        if len(from_words) > 1:
            print(f"fall together: {s}: {', '.join(sorted(from_words))}", file=sys.stderr)
            return 2
    for path in files("crates", ".antt", ".rt", ".edit"):
        text = read(path)
        if path.endswith(".antt") and FUNCTION.search(path):
            new = turn_function(text, words, fields)
        elif path.endswith(".rt") or path.endswith(".edit"):
            new = turn_all(text, {w for w in words if "-" not in w})
        else:
            new = turn_all(text, words)
        if new != text:
            with open(path, "w", encoding="utf-8") as f:
                f.write(new)
    pages = [p for p in files(".", ".md") if not p.startswith("./docs/PORT")]
    for path in pages:
        text = read(path)
        new = turn_page(text, words)
        if new != text:
            with open(path, "w", encoding="utf-8") as f:
                f.write(new)
    return 0


if __name__ == "__main__":
    sys.exit(main())
