#!/usr/bin/env python3
"""Spells this repository's own definitions and lemmas in snake case, and renames the crate md5 to md5_digest, in crates/ and
crates.txt as the toolchain's port script left them.

usage: respell.py ROOT        once, at the top of a checkout; files are rewritten in place

names.tsv, beside this script, has a line for each name: OLD, NEW, and, where a name changes in some files alone, the path that
these begin with. It was made from the declarations of specs/ and proofs/ by one rule: camelCase and kebab-case become
snake_case; where a lemma would then have the name of a definition that stands in the same file, it is NAME_lem, and a
constructor NAME_row. No two definitions fall together.

What is respelled: all of .antt files, and of .rt files the clauses, the ghost items and the `ghost use` lines. Functions,
exported names, strings, inputs and outputs keep their names; so do the names that the prover makes (goals and steps behind
`c.`, `goal.`, `tie.`).
"""
import os
import re
import subprocess
import sys
from glob import glob

RENAMED_CRATES = {"md5": "md5_digest"}  # the toolchain has a library of the old name

NAME = r"[^\s(){}.;,@\"«»\[\]\\:λ⟦⟧⌜⌝|]+"
TOKEN = re.compile(r'"(?:[^"\\\n]|\\.)*"|' + NAME)
GHOST_USE = re.compile(r"(?ms)^[ \t]*(?:pub )?ghost use [^;]*;")
TACTIC = re.compile(r"#!?\[tactic\([^\]]*\)\]")
CLAUSE = re.compile(r"\b(?:requires|ensures|decreases|invariant)\*?(?:[ \t]+\w+)?[ \t]*\{|\bghost(?:[ \t]+\w+)+[ \t]*[:=]?[ \t]*\{")
GHOST_VALUE = re.compile(r"\s*=\s*\{")
FUNCTION_PROOF = re.compile(r"/(Proof|Answers|Invariants)\.antt$")
MADE_BY_THE_PROVER = {"c", "goal", "tie", "before", "l", "w", "Lts"}


def closing(text, start):
    """Where the bracket that opened just before `start` is closed."""
    depth, i = 1, start
    while i < len(text) and depth:
        depth += (text[i] == "{") - (text[i] == "}")
        i += 1
    return i


def clause_spans(text):
    """The parts of a .rt file that the prover reads, in order and without overlap."""
    spans = [m.span() for pattern in (GHOST_USE, TACTIC) for m in pattern.finditer(text)]
    for m in CLAUSE.finditer(text):
        end = closing(text, m.end())
        spans.append((m.start(), end))
        value = GHOST_VALUE.match(text, end)
        if value:
            spans.append((end, closing(text, value.end())))
    merged = []
    for start, end in sorted(spans):
        if merged and start < merged[-1][1]:
            merged[-1] = (merged[-1][0], max(end, merged[-1][1]))
        else:
            merged.append((start, end))
    return merged


class Names:
    def __init__(self, path):
        self.everywhere, self.below = {}, []
        for line in open(path, encoding="utf-8"):
            old, new, *prefix = line.rstrip("\n").split("\t")
            if prefix:
                self.below.append((prefix[0], old, new))
            else:
                self.everywhere[old] = new

    def respell(self, text, file):
        here = {old: new for prefix, old, new in self.below if file.startswith(prefix)}

        def spelled(m):
            word, behind_a_dot = m[0], text[: m.start()].endswith(".")
            if word in here and not behind_a_dot:
                return here[word]
            if word not in self.everywhere:
                return word
            if "-" in word and behind_a_dot and FUNCTION_PROOF.search(file):
                owner = re.search(r"([^\s(){}.,\[\]]+)\.$", text[max(0, m.start() - 80) : m.start()])
                if owner and owner[1] in MADE_BY_THE_PROVER:
                    return word
            return self.everywhere[word]

        return TOKEN.sub(spelled, text)


def rewrite(path, turn):
    text = open(path, encoding="utf-8").read()
    turned = turn(text)
    if turned != text:
        open(path, "w", encoding="utf-8").write(turned)


def respell_names(names):
    for file in glob("crates/*/specs/**/*.antt", recursive=True) + glob("crates/*/proofs/**/*.antt", recursive=True):
        rewrite(file, lambda text: names.respell(text, file))
    for file in glob("crates/*/src/**/*.rt", recursive=True):

        def clauses(text):
            parts, last = [], 0
            for start, end in clause_spans(text):
                parts += [text[last:start], names.respell(text[start:end], file)]
                last = end
            return "".join(parts) + text[last:]

        rewrite(file, clauses)


def rename_crate(old, new):
    subprocess.check_call(["git", "mv", f"crates/{old}", f"crates/{new}"])

    def paths(text):
        text = re.sub(rf"(?<![\w:.-]){old}::", f"{new}::", text)
        return re.sub(rf"\bRattle\.{old}\.", f"Rattle.{new}.", text)

    for file in glob("crates/*/**/*", recursive=True):
        if file.endswith((".rt", ".antt")) and "/out/" not in file:
            rewrite(file, paths)
    rewrite("crates.txt", lambda text: re.sub(rf"(?m)^(?!#).*$", lambda line: re.sub(rf"\b{old}\b", new, line[0]), text))


def main():
    names = Names(os.path.join(os.path.dirname(os.path.realpath(__file__)), "names.tsv"))
    os.chdir(sys.argv[1])
    respell_names(names)
    for old, new in RENAMED_CRATES.items():
        rename_crate(old, new)


if __name__ == "__main__":
    main()
