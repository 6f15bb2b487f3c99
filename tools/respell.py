#!/usr/bin/env python3
"""Spells this repository's own names as today's Rattle spells names: words joined by underscores, types and modules in camel case.

    tools/respell.py [FOLDER]

Reads tools/respell.tsv: the old name, the new one, and perhaps a crate in which alone the line holds (such a line stands over the others there).
A lemma that would have come to the name of a definition ends in `_lem`. Names are turned as whole words, in definitions, proofs, contracts,
comments and edits; what stands in a string of the code, and what the prover names (`tie.`), stays.
Our choice `if .. then .. else ..` becomes `when .. then .. else ..`: today's library has an operator of the first name, and no other may bear it.
"""
import glob
import os
import re
import sys

HERE = os.path.dirname(os.path.abspath(__file__))
WORD = re.compile(r"(\\n)|([^\s(){}\[\],;.`\"\\]+)")
STRING = re.compile(r'"(?:[^"\\\n]|\\.)*"')
MADE = re.compile(r'\btie\.$')
CHOICE = re.compile(r"(?<![-\w'])if(?![-\w'])")
COMMENT = re.compile(r'(--.*)')
CLAUSE = re.compile(r'^\s*(?:requires|ensures|ghost use)\b')


def tables():
    everywhere, crates = {}, {}
    with open(os.path.join(HERE, 'respell.tsv')) as lines:
        for line in lines:
            old, new, *crate = line.rstrip('\n').split('\t')
            (crates.setdefault(crate[0], {}) if crate else everywhere)[old] = new
    return everywhere, crates


def respelled(text, table):
    def one(found):
        if found[1] or MADE.search(text, 0, found.start()):
            return found[0]
        return table.get(found[2], found[2])
    return WORD.sub(one, text)


def of_code(text, table):
    pieces, at = [], 0
    for string in STRING.finditer(text):
        pieces += [respelled(text[at:string.start()], table), string[0]]
        at = string.end()
    return ''.join(pieces) + respelled(text[at:], table)


def chosen(line, kind):
    if kind == 'code':
        return CHOICE.sub('when', line) if CLAUSE.match(line) else line
    text, *comment = COMMENT.split(line, maxsplit=1)
    return CHOICE.sub('when', text) + ''.join(comment)


def with_choices(path, text):
    """Our operator of choice under its new name: in definitions and proofs, in clauses, and in edits of definitions."""
    if path.endswith('.edit') and not re.search(r'^file: (specs|proofs)/', text, re.M):
        return text
    return '\n'.join(chosen(line, 'code' if path.endswith('.rt') else 'logic') for line in text.split('\n'))


def main():
    os.chdir(sys.argv[1] if len(sys.argv) > 1 else os.path.dirname(HERE))
    everywhere, crates = tables()
    for pattern in ('crates/*/specs/**/*.antt', 'crates/*/proofs/**/*.antt', 'crates/*/src/**/*.rt', 'crates/*/must-fail/*.edit', 'tests/wrong/*/*.edit'):
        for path in sorted(glob.glob(pattern, recursive=True)):
            crate = path.split('/')[2 if path.startswith('tests') else 1]
            table = {**everywhere, **crates.get(crate, {})}
            with open(path) as file:
                text = file.read()
            new = with_choices(path, (of_code if path.endswith('.rt') else respelled)(text, table))
            if new != text:
                with open(path, 'w') as file:
                    file.write(new)


main()
