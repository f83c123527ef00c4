#!/usr/bin/env python3
"""Brings this repository's own definitions, lemmas and local names to today's spelling: words in snake case, types and modules as
they are. Run once, behind the toolchain's port.py, at the top of the repository.

usage: tools/snake_names.py          rewrites crates/, README.md and docs/ in place
       tools/snake_names.py --table  prints the table, old and new, and changes nothing

Names that the kit's libraries have stay. Where two names fall together, the definition takes the plain spelling and the lemma ends in
_law. Names of Rust functions, strings, inputs and outputs are not touched."""
import collections
import pathlib
import re
import sys

ROOT = pathlib.Path('crates')
WORD = re.compile(r'[^\s(){}.;,@"«»`]+')
DECLARED = re.compile(r"^\s*(?:\{ ?)?(?:\| )?(?:abbrev |unfoldable |pub |mutual )*(?:data |record )?((?:[^\s:(){};,]+\s+)*[^\s:(){};,]+)\s*:\s(?!=)")
ALIASES = {
    'List·Memᴰ·head': 'member_head',
    'List·Memᴰ·tail': 'member_tail',
    'List·Memᴰ·append-cases': 'member_append_cases',
    'List·Memᴰ·eq-of-singleton': 'member_eq_of_singleton',
    'List·Memᴰ·not-nil': 'member_not_nil',
    'Memᴰ·append-left': 'member_append_left',
    'Memᴰ·append-right': 'member_append_right',
    'List-as-Memᴰ': 'Member',
    'Option·none-ne-some': 'none_ne_some',
    'Option·some-injective': 'some_injective',
    'List·getD-eq-default': 'get_or_eq_default',
    'List·getD-map': 'get_or_map',
    'List·getD-append': 'get_or_append',
}
# Names of the repository that another crate's library has under the same spelling; and what is no name.
LEFT = {'and-false', 'not-true', 'map-append', "b'-'"}


def code(text):
    return re.sub(r'--[^\n]*', '', text)


def snake(name):
    if name[:1].isupper() or not re.match(r"^[a-z][\w'-]*$", name):
        return name
    name = re.sub(r'getD(?=-|$)', 'get_or', name)
    name = re.sub(r'([a-z0-9₀-₉])([A-Z])', lambda m: m.group(1) + '_' + m.group(2).lower(), name)
    name = re.sub(r'([A-Z])', lambda m: '_' + m.group(1).lower(), name)
    return re.sub(r"-(?=[\w'])", '_', name)


def authored():
    return [f for f in sorted(ROOT.rglob('*.antt')) if f.name not in ('Proof.antt', 'Answers.antt', 'Invariants.antt')
            or f.parent.name in ('proofs', 'specs')]


def from_library():
    """The spellings that come from the kit's libraries."""
    found = set()
    for f in sorted(ROOT.rglob('*.antt')) + sorted(ROOT.rglob('*.rt')):
        for m in re.finditer(r'use (?:Rattle\.(?:std|core|io)\b|mathlib|borrow|lib\.|native|Prim)[^{;\n]*\{([^}]*)\}', f.read_text()):
            found.update(n.split(' as ')[0].strip() for n in m.group(1).split(','))
    return found


def table():
    library, declared, seen = from_library(), collections.defaultdict(set), set()
    for f in authored():
        text = code(f.read_text())
        for line in text.split('\n'):
            m = DECLARED.match(line)
            words = m.group(1).split() if m else []
            if any(re.search(r'[=→↦λ≡∷×+*]', w) or w in ('let', 'in', 'rw') for w in words):
                words = words[-1:] if words[0] in ('let', 'where', 'record') else []
            for w in words:
                declared[w].add('specs' in f.parts)
        for m in WORD.finditer(text):
            if re.match(r"^[a-z]", m.group(0)):
                seen.add(m.group(0))
    names = {n for n in seen | set(declared) if n not in library and n not in LEFT and snake(n) != n}
    groups = collections.defaultdict(set)
    for n in names | {n for n in declared if n not in library}:
        groups[snake(n)].add(n)
    to = dict(ALIASES)
    for new, olds in sorted(groups.items()):
        def rank(old):
            return (old not in declared, True not in declared.get(old, ()), not re.search('[a-z0-9][A-Z]', old), old != new, old)
        first, *others = sorted(olds, key=rank)
        if new in library:
            first, others = None, sorted(olds)
        if first is not None and first != new:
            to[first] = new
        for old in others:
            to[old] = new + '_law'
    return to


def rust_names():
    found = set()
    for f in ROOT.rglob('*.rt'):
        found.update(re.findall(r'\b[a-z_][a-z0-9_]*\b', f.read_text()))
    return found


def turn(text, to, keeps_plain=frozenset(), only=None):
    def new(m):
        word = m.group(0)
        if word not in to or (only is not None and not only(word)):
            return word
        if m.string[max(m.start() - 1, 0):m.start()] == '.' and snake(word) in keeps_plain:
            return snake(word)
        return to[word]
    return WORD.sub(new, text)


def camel(word):
    return bool(re.search('[a-z0-9][A-Z]', word)) or '·' in word or 'ᴰ' in word


def foreign(word):
    """No name of Rust has this spelling."""
    return camel(word) or '-' in word


def turn_antt(text, to, plain):
    parts = re.split(r'(--[^\n]*)', text)
    return ''.join(turn_comment(p, to) if p.startswith('--') else turn(p, to, plain) for p in parts)


def turn_comment(text, to):
    text = turn(text, to, only=camel)
    return re.sub(r'`[^`\n]*`', lambda m: turn(m.group(0), to, only=foreign), text)


def turn_rt(text, to):
    parts = re.split(r'(//[^\n]*|b?"(?:\\.|[^"\\])*")', text)
    return ''.join(turn_comment(p, to) if p.startswith('//') else p if p.endswith('"') else turn(p, to, only=foreign) for p in parts)


def main():
    to = table()
    if '--table' in sys.argv:
        for old, new in sorted(to.items()):
            print(old, new, sep='\t')
        return
    rust = rust_names()
    mine = {f for f in authored()}
    for f in sorted(ROOT.rglob('*.antt')):
        text = f.read_text()
        f.write_text(turn_antt(text, to, frozenset() if f in mine else rust))
    for f in sorted(ROOT.rglob('*.rt')):
        f.write_text(turn_rt(f.read_text(), to))
    for f in sorted(ROOT.rglob('*.edit')):
        text = f.read_text()
        only = foreign if 'file: src/' in text else None
        f.write_text(''.join(line if line.startswith('file:') else turn(line, to, only=only) for line in text.splitlines(True)))
    for f in [pathlib.Path('README.md')] + sorted(pathlib.Path('docs').glob('*.md')):
        f.write_text(re.sub(r'`[^`\n]*`', lambda m: turn(m.group(0), to, only=foreign), f.read_text()))


if __name__ == '__main__':
    main()
