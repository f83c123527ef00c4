#!/usr/bin/env python3
"""Brings the texts of must-fail edits of specs/ and proofs/ to today's spelling: paths, projections, primes and the repository's own
names. Run once, behind tools/snake_names.py, at the top of the repository. An edit of src/ is left as it is.

usage: tools/turn_edits.py"""
import pathlib
import re

from snake_names import snake

NAME = re.compile(r"(?<![\w'-])([a-z][\w'′-]*[A-Z][\w'′-]*)")


def without_brackets(text):
    """A projection in brackets needs none: (r.kind) is r.kind, and ((f x).kind) is (f x).kind."""
    text = re.sub(r"\(([a-z][\w']*(?:\.[a-z]\w*)+)\)", r'\1', text)
    changed = True
    while changed:
        changed = False
        for i in range(len(text)):
            if not text.startswith('((', i):
                continue
            depth, j = 1, i + 2
            while j < len(text) and depth:
                depth += {'(': 1, ')': -1}.get(text[j], 0)
                j += 1
            field = re.match(r'\.[a-z]\w*\)', text[j:])
            if field and not depth:
                text = text[:i] + text[i + 1:j] + field.group(0)[:-1] + text[j + field.end():]
                changed = True
                break
    return text


def turn(text):
    text = re.sub(r'Rattle·(\w+)(?:·(specs|proofs))?\.(specs|proofs)', r'Rattle.\1.\3', text)
    text = re.sub(r"(?<=[\w')]) \.(?=[a-z])", '.', text)
    text = NAME.sub(lambda m: snake(m.group(1)), text).replace('′', "'")
    text = re.sub(r'_(≡|\+|\*)_', r'◌\1◌', text)
    return without_brackets(text)


for edit in sorted(pathlib.Path('crates').glob('*/must-fail/*.edit')):
    lines = edit.read_text().split('\n')
    if not any(line.startswith('file: src/') for line in lines):
        edit.write_text('\n'.join(line[:5] + turn(line[5:]) if line.startswith(('old: ', 'new: ')) else line for line in lines))
