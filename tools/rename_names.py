#!/usr/bin/env python3
"""Brings the repository's own definitions and lemmas to the spelling of today's Rattle: words in snake case, types in camel case.

usage: tools/rename_names.py            at the top of a repository that port.py has just turned

Each line of tools/names.tsv is an old name and its new one. The names are changed in the specs/, proofs/ and src/ of every crate and in its
must-fail edits; in comments only between backticks. Edits also get the spelling that port.py gave to the files they change (paths with dots,
tight projections; tools/names_ported.tsv has the names that port.py itself changed). Run it once.
"""
import os
import re

HERE = os.path.dirname(os.path.realpath(__file__))
NAMES = dict(line.rstrip('\n').split('\t') for line in open(os.path.join(HERE, 'names.tsv'), encoding='utf-8'))
TOKEN = re.compile(r"[^\s(){}\[\];,.λ\"`]+")
QUOTED = re.compile(r'`[^`]*`')
# what port.py respelled in the files, for the edits that quote them
PORTED = dict(line.rstrip('\n').split('\t') for line in open(os.path.join(HERE, 'names_ported.tsv'), encoding='utf-8')) | {'getD': 'get_or'}


def renamed(text, names=NAMES):
    return TOKEN.sub(lambda m: names.get(m[0], m[0]), text)


def turned(text, comment):
    """A file's text: names everywhere in code, and between backticks in comments."""
    lines = []
    for line in text.split('\n'):
        at = line.find(comment)
        if at < 0:
            lines.append(renamed(line))
        else:
            lines.append(renamed(line[:at]) + QUOTED.sub(lambda m: renamed(m[0]), line[at:]))
    return '\n'.join(lines)


def edited(text):
    """An edit's text: the same, after the spelling that port.py gave."""
    text = re.sub(r'Rattle·(\w+)\.', r'Rattle.\1.', text)
    text = re.sub(r'\((\w+) \.(\w+(?:\.\w+)*)\)', r'\1.\2', text)
    text = re.sub(r'(\w) \.(\w)', r'\1.\2', text)
    return renamed(renamed(text.replace('′', "'"), PORTED))


def main():
    for folder, _, files in os.walk('crates'):
        for f in sorted(files):
            path = os.path.join(folder, f)
            if f.endswith(('.antt', '.rt', '.edit')) and '/out/' not in path:
                old = open(path, encoding='utf-8').read()
                new = edited(old) if f.endswith('.edit') else turned(old, '--' if f.endswith('.antt') else '//')
                if new != old:
                    open(path, 'w', encoding='utf-8').write(new)


main()
