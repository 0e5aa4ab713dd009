#!/usr/bin/env python3
"""Spells the repository's own words as today's Rattle does: definitions, fields and lemmas in snake case.

usage: python3 tools/respell.py        at the top of the repository, once, after port.py

A word is respelled where specs/ or proofs/ of a crate declares it: `pairAnswer` becomes `pair_answer`, `half-step` becomes `half_step`.
A lemma whose new name is that of a definition gets `_lem` after it. Functions of src/, strings, and words that a file takes from the
kit keep their names. It writes crates/*/src, specs, proofs and must-fail, and prints each word that got `_lem`.
"""

import collections
import os
import re

WORD = re.compile(r"[^\s(){}\[\],;.|`\"\u03bb\u2192\u00d7\u228e\u21a6\u2200\u2203\u27e8\u27e9=:]+")
HEAD = re.compile(r"^\s*\|?\s*(?:(?:abbrev|pub|unfoldable|private)\s+)*(data\s+|record\s+|ruleset\s+)?([^\s:(){}.,;|=]+)\s+(?=[:({])")
USE = re.compile(r"^(?:pub )?(?:ghost )?use ([^\s{]+?)\.?(?:\{(.*)\})?(?: as \S+)?;?$")
SKIP = ("let ", "in ", "use ", "module", "open", "where", "unfolding", "elim", "--")


def crates():
    with open("crates.txt", encoding="utf-8") as f:
        return [l.split(":")[0].split()[0] for l in f if l.strip() and not l.startswith("#")]


def files(own, kinds, parts=("src", "specs", "proofs", "must-fail")):
    for c in own:
        for part in parts:
            for folder, dirs, names in os.walk(os.path.join("crates", c, part)):
                dirs.sort()
                for n in sorted(names):
                    if n.endswith(kinds):
                        yield os.path.join(folder, n)


def read(path):
    with open(path, encoding="utf-8") as f:
        return f.read()


def spelled(word):
    if not word[0].islower():
        return word
    return re.sub(r"(?<=[a-z0-9])([A-Z])", lambda m: "_" + m.group(1).lower(), word).replace("-", "_")


def declared(own):
    """Each word that specs/ or proofs/ declares, with the files where it does; proofs of single functions aside."""
    found = collections.defaultdict(set)
    for path in files(own, ".antt", ("specs", "proofs")):
        inside = path.split("/", 3)[3]
        if path.split("/")[2] == "proofs" and "/" in inside:
            continue
        for line in read(path).splitlines():
            m = HEAD.match(line)
            if m and not line.strip().startswith(SKIP) and (m.group(1) or line[m.end():].startswith(":")):
                found[m.group(2)].add(path)
    return found


def taken(text, own):
    """The words that a file imports from the kit."""
    words = set()
    for line in text.splitlines():
        m = USE.match(line.strip())
        if m and m.group(2):
            crate = re.match(r"Rattle\.(\w+)\.", m.group(1))
            if not (crate and crate.group(1) in own):
                words |= {w.strip() for w in m.group(2).split(",")}
    return words


def table(own):
    found = declared(own)
    is_definition = {w: any("/specs/" in p for p in found[w]) for w in found}
    by_new = collections.defaultdict(list)
    for w in found:
        by_new[spelled(w)].append(w)
    to = {}
    for new, olds in by_new.items():
        kept = [w for w in olds if is_definition[w]] or [w for w in olds if w == new] or sorted(olds)[:1]
        for w in olds:
            to[w] = new if w in kept else new + "_lem"
    return {w: n for w, n in to.items() if w != n}


def respell(line, to):
    def turned(m):
        word = m.group(0)
        new = to.get(word, word)
        # what stands after a dot is a field, and no lemma
        return spelled(word) if new.endswith("_lem") and line[m.start() - 1 : m.start()] == "." else new

    return WORD.sub(turned, line)


def respell_source(line, to):
    """A line of a .rt file: strings keep their text, and plain snake case words are the code's."""
    only = {w: n for w, n in to.items() if "-" in w or w.lower() != w}
    return "".join(p if p.startswith('"') else respell(p, only) for p in re.split(r'("(?:\\.|[^"\\])*")', line))


def main():
    own = crates()
    to = table(own)
    for path in files(own, (".antt", ".rt", ".edit")):
        text = read(path)
        kit = taken(text, own)
        here = {w: n for w, n in to.items() if w not in kit}
        turn = respell if path.endswith(".antt") else respell_source
        new = "\n".join(turn(line, here) for line in text.split("\n"))
        if new != text:
            with open(path, "w", encoding="utf-8") as f:
                f.write(new)
    for w, n in sorted(to.items()):
        if n.endswith("_lem"):
            print(w, n)


if __name__ == "__main__":
    main()
