#!/usr/bin/env python3
"""Turns a crate's proof files that close a whole proof by `own.Tie.spec`, with one answer for each goal in order, into
Invariants.antt and Answers.antt, with the names that the check gives the goals.

usage: tools/turn_proofs.py CRATE NAMES.json [FUNCTION..]

NAMES.json is what `rt check --generated FOLDER --old-names` writes in the crate's folder. A file that is not of that form, or whose
count of answers is not that of the goals, is left and named."""
import json
import pathlib
import re
import sys

OPEN, CLOSE = '([{', ')]}'


def split_terms(text):
    """The terms of an application, at depth 0."""
    terms, depth, term = [], 0, ''
    for ch in text:
        if ch in OPEN:
            depth += 1
        if ch in CLOSE:
            depth -= 1
        if ch.isspace() and depth == 0:
            if term:
                terms.append(term)
            term = ''
        else:
            term += ch
    if term:
        terms.append(term)
    return terms


def split_at(text, mark):
    parts, depth, part = [], 0, ''
    for ch in text:
        if ch in OPEN:
            depth += 1
        if ch in CLOSE:
            depth -= 1
        if ch == mark and depth == 0:
            parts.append(part)
            part = ''
        else:
            part += ch
    return parts + [part]


def closing(text, start):
    depth = 0
    for i in range(start, len(text)):
        if text[i] in OPEN:
            depth += 1
        if text[i] in CLOSE:
            depth -= 1
            if depth == 0:
                return i
    return -1


def clauses():
    """For each function by its name: the names of its requires and of its ensures."""
    found = {}
    for f in pathlib.Path('crates').rglob('*.rt'):
        text = re.sub(r'//[^\n]*', '', f.read_text())
        for m in re.finditer(r'(?m)^\s*(?:pub )?fn (\w+)', text):
            head = text[m.end():]
            end = re.search(r'\n\{|(?<=[\w\])>]) \{\n', head)
            head = head[:end.start()] if end else head
            said = {k: re.findall(r'\b' + k + r' (\w+) \{', head) for k in ('requires', 'ensures')}
            found.setdefault(m.group(1), said)
            found.setdefault(f'{f.parts[1]}::{m.group(1)}', said)
    return found


def said_of(step):
    """The fields of a test and of a loop, old and new."""
    if step.startswith('if') or step.endswith('-test'):
        return {'taken': 'true', 'left': 'false'}
    return {'inv': 'invariant'} if step.startswith(('loop', 'while')) else {}


def aligned(terms, needs):
    """The terms that answer the goals, where some goals of the older kit are settled today: those that say nothing more go."""
    def asks(term):
        return bool(re.match(r'^\(λ \w+ κs\.', term))

    def plain(term):
        return term.startswith('(') and bool(PLAIN.match(term[1:closing(term, 0)].strip()))

    n, m = len(terms), len(needs)
    best = {(n, m): []}
    for i in range(n, -1, -1):
        for j in range(m, -1, -1):
            if (i, j) == (n, m):
                continue
            found = None
            if i < n and j < m and (i + 1, j + 1) in best and asks(terms[i]) == ('requires' in needs[j][1]):
                found = [i] + best[(i + 1, j + 1)]
            elif i < n and plain(terms[i]) and (i + 1, j) in best:
                found = best[(i + 1, j)]
            if found is not None:
                best[(i, j)] = found
    return [terms[i] for i in best[(0, 0)]] if (0, 0) in best else terms


class Names:
    def __init__(self, entry, function, known):
        self.needs = entry['needs']
        self.asked = entry['asked']
        self.places = entry['places']
        self.loops = entry['loops']
        self.changed = entry['changed']
        self.function = function
        self.known = known
        self.field, self.callee = {}, {}
        self.params = {f"{callee.split('::')[0]}::{callee.split('::')[-1]}": params for callee, params in entry.get('params', {}).items()}
        for name, parent, (old, new), callee, *_ in entry['places']:
            if old:
                self.field.setdefault(old, new)
                if callee:
                    self.callee[new] = f"{callee.split('::')[0]}::{callee.split('::')[-1]}"
        for (old, new), _ in entry['loops']:
            self.field[old] = new
        self.every = dict(self.field)
        # tests of a call's negated answer: their facts speak of the answer itself
        self.plain_tests = {new for _, _, (_, new), _, said, *_ in entry['places'] if said}
        self.at = {name: (i, parent, old, new) for i, (name, parent, (old, new), *_) in reversed(list(enumerate(entry['places'])))}
        self.arms = entry['arms']
        self.asked_at = entry['asked_at']
        self.arm = {}

    def stand(self, k):
        """The names as the goal of number k sees them: of the places behind it, nearest first."""
        self.field, self.arm = {}, {}
        place = self.asked_at[k][0]
        while place in self.at:
            i, parent, old, new = self.at[place]
            if old:
                self.field.setdefault(old, new)
                self.field.setdefault(old.replace('_', '-'), new)
            arm = self.arms[i] if i < len(self.arms) else None
            if arm:
                for new_sub, old_field, path in arm[2]:
                    self.arm.setdefault((old_field, *path), (arm[0], new_sub))
            place = parent
        for old, new in self.every.items():
            self.field.setdefault(old, new)

    def tuple_path(self, names, rest):
        """.1.0 of nested pairs into the clause's name, and what is left of the path."""
        i = 0
        k = 0
        while i < len(rest) and k < len(names):
            if rest[i] == '1' and k < len(names) - 1 and not (len(names) == k + 2 and False):
                k += 1
                i += 1
                if k == len(names) - 1:
                    break
                continue
            if rest[i] == '0':
                i += 1
                break
            if rest[i].isdigit():
                k += int(rest[i])
                i += 1
                break
            return None
        return [names[min(k, len(names) - 1)]] + rest[i:]

    def path(self, segments):
        segments = [s for s in segments]
        while segments and segments[0] == 'before':
            segments.pop(0)
        if not segments:
            return 'c'
        head, rest = segments[0], segments[1:]
        plain = head.replace('-', '_')
        for n in range(len(segments), 0, -1):
            for key in ((head, *rest[:n - 1]), (plain, *rest[:n - 1])):
                if key in self.arm:
                    new_head, new_sub = self.arm[key]
                    left = rest[n - 1:]
                    if new_sub.endswith('-own') and left and left[0] in ('rest', 'given'):
                        left = left[1:]
                    return '.'.join(['c', new_head, new_sub] + left)
        for known in (head, plain, head.replace('_', '-'), plain.lower(), re.sub(r'\d+$', '', plain), re.sub(r'_lem$', '', plain)):
            if known in self.field:
                head = self.field[known]
                break
        else:
            if head in ('well-formed',):
                head = 'well_formed'
        if rest:
            rest = [said_of(head).get(rest[0], rest[0])] + rest[1:]
        if head == 'requires':
            names = self.known.get(self.function, {}).get('requires', [])
            if names and rest and rest[0].isdigit():
                rest = self.tuple_path(names, rest) or rest
        return '.'.join(['c', head] + self.of_call(head, rest))

    def of_call(self, head, rest):
        """What is said of a call's answer, by the names of its parameters and clauses."""
        if len(rest) > 1 and rest[0] in ('kept', 'auto', 'last', 'new') and head in self.callee and re.match(r'[01]$', rest[1]):
            params, k = self.params.get(self.callee[head], []), 1
            while k < len(rest) and rest[k] == '1':
                k += 1
            if k < len(rest) and rest[k] == '0' and k - 1 < len(params):
                rest = ['new' if rest[0] in ('last', 'new') else 'auto', params[k - 1]] + rest[k + 1:]
        if rest and rest[0] == 'kept':
            rest = ['auto'] + rest[1:]
        if rest and rest[0] == 'ensures' and head in self.callee:
            names = self.known.get(self.callee[head], {}).get('ensures', [])
            if names and len(rest) > 1 and rest[1].isdigit():
                rest = ['ensures'] + (self.tuple_path(names, rest[1:]) or rest[1:])
        return rest


def translate(body, names, first='c', cycle=False):
    aliases = {first}
    changed = True
    while changed:
        changed = False
        for m in re.finditer(r"\blet ([\w'-]+) = ([\w'-]+)((?:\.before)*) in\b", body):
            if m.group(2) in aliases:
                aliases.add(m.group(1))
                body = body[:m.start()] + body[m.end():].lstrip()
                changed = True
                break

    def one(m):
        if m.group(1) not in aliases:
            return m.group(0)
        return names.path(m.group(2)[1:].split('.') if m.group(2) else [])

    body = re.sub(r"(?<![\w.'-])([A-Za-z][\w'-]*)((?:\.[\w'-]+)*)", one, body)
    body = re.sub(r", c\.[\w'-]+\.[\w'-]+-own(?=[,)])", '', body)
    body = re.sub(r", c\.(?:good|well_formed|well-formed)(?:\.[01])*(?=[,)])", '', body)
    for m in list(re.finditer(r"\blet ([\w'-]+) = c\.(?:good|well_formed|well-formed)(?:\.[01])* in\s*", body)):
        if len(re.findall(rf"(?<![\w.'-]){re.escape(m.group(1))}(?![\w'-])", body)) == 1 + len(re.findall(rf", {re.escape(m.group(1))}(?=[,)])", body)):
            body = re.sub(rf", {re.escape(m.group(1))}(?=[,)])", '', body.replace(m.group(0), ''))
    body = re.sub(r"\(not-(?:true|false) _ (c\.(if-not-[\w'-]+)\.(?:true|false))\)",
                  lambda m: m.group(1) if m.group(2) in names.plain_tests else m.group(0), body)
    body = re.sub(r"not-(?:true|false) _ (c\.(if-not-[\w'-]+)\.(?:true|false))(?![\w'.-])",
                  lambda m: m.group(1) if m.group(2) in names.plain_tests else m.group(0), body)
    body = re.sub(r"not-(?:true|false) _ \((c\.(if-not-[\w'-]+)\.(?:true|false))\)",
                  lambda m: m.group(1) if m.group(2) in names.plain_tests else m.group(0), body)
    for m in list(re.finditer(r"\blet ([\w'-]+) = c\.fits\.[\w'-]+ in\s*", body)):
        body = body.replace(m.group(0), '').replace(f'(omega (arith, {m.group(1)}))', '(omega arith)')
    body = re.sub(r", c\.fits(?:\.(?!ensures|result)[\w'-]+)+(?=[,)])", '', body)
    for m in list(re.finditer(r"\blet ([\w'-]+) = c\.([\w'-]+) in", body)):
        if m.group(2) in names.callee:
            body = re.sub(rf"(?<![\w.'-]){re.escape(m.group(1))}((?:\.[\w'-]+)+)",
                          lambda k: '.'.join([m.group(1)] + names.of_call(m.group(2), k.group(1)[1:].split('.'))), body)
    body = re.sub(r", c\.[\w'-]+\.(?:kept|auto)(?=[,)])", '', body)
    body = re.sub(r"\(arith, c\.[\w'-]+\.(?:kept|auto)\)", '(arith)', body).replace('omega (arith)', 'omega arith')
    for m in list(re.finditer(r"\blet ([\w'-]+) = c\.([\w'-]+)\.(?:kept|auto) in", body)):
        params = names.params.get(names.callee.get(m.group(2), ''), [])
        body = re.sub(rf"(?<![\w.'-]){re.escape(m.group(1))}((?:\.1)*)\.0(?![\w'-])",
                      lambda k: f"{m.group(1)}.{params[k.group(1).count('1')]}" if k.group(1).count('1') < len(params) else k.group(0), body)
    for m in list(re.finditer(r"\blet ([\w'-]+) = c\.([\w'-]+)\.ensures in", body)):
        clause = names.known.get(names.callee.get(m.group(2), ''), {}).get('ensures', [])
        if clause:
            body = re.sub(rf"(?<![\w.'-]){re.escape(m.group(1))}((?:\.[01])+)(?![\w'-])",
                          lambda k: '.'.join([m.group(1)] + names.tuple_path(clause, k.group(1)[1:].split('.'))), body)
    rest = re.search(r"\blet ([\w'-]+) = c\.[\w'-]+\.in_default-own in\s*", body)
    if rest:
        body = body[:rest.start()] + body[rest.end():]
        body = re.sub(rf"(?<![\w.'-]){re.escape(rest.group(1))}(?:\.[01])+(?![\w'-])", '(search rules)', body)
        body = re.sub(rf"\blet [\w'-]+ = {re.escape(rest.group(1))} in\s*", '', body)
    body = re.sub(r"(?<![\w.])c\.[\w'-]+\.in_default-own(?:\.[01])+(?![\w'-])", '(search rules)', body)
    for m in re.finditer(r"\blet ([\w'-]+) = c\.((?:loop|if|while|match)[\w'-]*) in", body):
        for old, new in said_of(m.group(2)).items():
            body = re.sub(rf"(?<![\w.'-]){re.escape(m.group(1))}\.{old}(?![\w'-])", f'{m.group(1)}.{new}', body)

    if cycle:
        # what was required stood beside the measure's fact
        at = 0
        while True:
            m = re.compile(r'\blet \(').search(body, at)
            if not m:
                break
            at = m.end()
            end = closing(body, m.end() - 1)
            stands = re.compile(r' = c\.requires in').match(body, end + 1)
            if stands:
                first, *others = split_at(body[m.end():end], ',')
                pattern = others[0].strip() if len(others) == 1 else '(' + ','.join(others).strip() + ')'
                body = body[:m.start()] + f'let {pattern}' + body[end + 1:]
                if first.strip() != '_':
                    body = re.sub(rf"(?<![\w.'-]){re.escape(first.strip())}(?![\w'-])", 'c.decreases', body)
        body = re.sub(r"(?<![\w.])c\.requires\.1(?![\w'-])", 'c.requires', body)

    def destruct(pattern, head, whole):
        vars_ = [v.strip() for v in split_at(pattern, ',')]
        clause = None
        call = re.fullmatch(r"c\.([\w'-]+)\.ensures", head)
        if call and call.group(1) in names.callee:
            clause = names.known.get(names.callee[call.group(1)], {}).get('ensures', [])
        elif head == 'c.requires':
            clause = names.known.get(names.function, {}).get('requires', [])
        if not clause:
            return whole
        flat = []
        while vars_:
            flat.append(vars_.pop(0))
            if len(vars_) == 1 and vars_[0].startswith('('):
                vars_ = [v.strip() for v in split_at(vars_[0][1:-1], ',')]
        if len(flat) > len(clause):
            flat = flat[:len(clause) - 1] + ['(' + ', '.join(flat[len(clause) - 1:]) + ')']
        return ' '.join(f'let {v} = {head}.{k} in' for v, k in zip(flat, clause) if v != '_')

    at = 0
    while True:
        m = re.compile(r'\blet \(').search(body, at)
        if not m:
            break
        at = m.end()
        end = closing(body, m.end() - 1)
        stands = re.compile(r" = (c\.[\w'.-]+) in").match(body, end + 1)
        if stands:
            new = destruct(body[m.end():end], stands.group(1), body[m.start():stands.end()])
            body = body[:m.start()] + new + body[stands.end():]
    return body


def last_of(body):
    """The start of what stands behind the leading lets."""
    i, n = 0, len(body)
    while True:
        m = re.compile(r'\s*let\b').match(body, i)
        if not m:
            return i + len(body[i:]) - len(body[i:].lstrip())
        depth, j = 0, m.end()
        opened = 1
        while j < n:
            if body[j] in OPEN:
                depth += 1
            elif body[j] in CLOSE:
                depth -= 1
            elif depth == 0 and re.compile(r'(?<![\w])let\b').match(body, j) and not body[j - 1].isalnum():
                opened += 1
            elif depth == 0 and re.compile(r'in\b').match(body, j) and body[j - 1].isspace():
                opened -= 1
                if opened == 0:
                    j += 2
                    break
            j += 1
        i = j


def by_clause(body, clause):
    start = last_of(body)
    last = body[start:].rstrip()
    if last.startswith('(') and closing(last, 0) == len(last) - 1:
        parts = [p.strip() for p in split_at(last[1:-1], ',') if p.strip()]
        while len(parts) < len(clause) and parts[-1].startswith('(') and closing(parts[-1], 0) == len(parts[-1]) - 1:
            parts = parts[:-1] + [p.strip() for p in split_at(parts[-1][1:-1], ',') if p.strip()]
        if len(parts) != len(clause) and len(parts) > len(clause) > 1:
            parts = parts[:len(clause) - 1] + ['(' + ', '.join(parts[len(clause) - 1:]) + ')']
        if len(parts) == len(clause):
            return body[:start] + 'record { ' + ' '.join(f'{k} = {p};' for k, p in zip(clause, parts)) + ' }'
    if len(clause) > 1 and not re.match(r'(search|omega|rw|record|cc|grind|simp|elim|λ|let|absurd)\b', last) and not last.startswith('('):
        return body[:start] + f'let given = {last} in record {{ ' + ' '.join(f'{k} = given.{i};' for i, k in enumerate(clause)) + ' }'
    return body


def with_rules(imports, text):
    """The imports, with `rules` where the text asks for it."""
    if not re.search(r'\brules\b', text) or any(re.search(r'\brules\b', i) for i in imports):
        return imports
    for k, line in enumerate(imports):
        if line.startswith('use Rattle.kit.specs.Names.{'):
            return imports[:k] + [line[:-1] + ', rules}'] + imports[k + 1:]
    return ['use Rattle.kit.specs.Names.{rules}'] + imports


def lay(text):
    return re.sub(r'[ \t]*\n\s*', '\n    ', text.strip())


PLAIN = re.compile(r'^λ c(?: κs)?\. search rules$')


def turn(crate, folder, names_of, known):
    proof = folder / 'Proof.antt'
    text = proof.read_text()
    function = folder.name
    key = f"Rattle-{crate}-proofs.{'.'.join(folder.relative_to(pathlib.Path('crates') / crate / 'proofs').parts)}.Lts"
    if key not in names_of:
        return f'no names {key}'
    names = Names(names_of[key], f'{crate}::{function}', known)
    m = re.search(r'own\.Tie\.close\s+\(own\.Tie\.spec', text)
    if not m:
        return 'no Tie.close'
    start = text.index('(', m.start())
    end = closing(text, start)
    terms = split_terms(text[m.end():end])
    spec = re.search(r'(?m)^pub [\w.]+_spec :[^\n]*(?:\n[ \t]+[^\n]*)*\n(unfolding [^\n]*\n)?', text)
    unfold = (spec.group(1) or '') if spec else ''
    head = text[:spec.start()] if spec else text[:m.start()]
    loops = []
    pieces = [p for p in re.split(r'\n\s*\n', head) if p.strip()]
    helpers, invariants, imports, comments = {}, [], [], []
    used = set()
    n = 0
    while terms and re.match(r'^(Inv|μ)-', terms[0]):
        used.add(terms.pop(0))
    if len(terms) > len(names.needs):
        terms = aligned(terms, names.needs)
    if len(terms) != len(names.needs):
        return f'{len(terms)} answers for {len(names.needs)} goals: {[n for n, _ in names.needs]}'
    by_loop = {old: (new, vars_, ch) for ((old, new), vars_), ch in zip(names.loops, names.changed)}
    others = []
    for piece in pieces:
        lines = piece.split('\n')
        keep = []
        for line in lines:
            if line.startswith('use '):
                imports.append(line)
            elif line.startswith('--'):
                comments.append(line)
            else:
                keep.append(line)
        piece = '\n'.join(keep).strip('\n')
        if not piece.strip():
            continue
        m = re.match(r'abbrev (Inv|μ)-(loop\d*) : [^\n]*\n(unfolding [^\n]*\n)?\1-\2 ([^=]*)=\s*(.*)$', piece, re.S)
        if m:
            kind, loop, un, params, body = m.groups()
            params = params.split()
            if loop not in by_loop:
                return f'no loop {loop}'
            new, vars_, ch = by_loop[loop]
            changed = [v for v, c in zip(vars_, ch) if c]
            if vars_ and vars_[0] == 'rt' and len(params) == len(vars_) + len(changed) - 1:
                params = ['rt'] + params
            if len(params) != len(vars_) + len(changed):
                return f'{loop}: {len(params)} parameters for {vars_} {ch}'
            to = {}
            for p, v, c in zip(params, vars_, ch):
                to[p] = ('l.initial.' if c else 'l.') + v
            for p, v in zip(params[len(vars_):], changed):
                to[p] = 'l.' + v
            body = re.sub(r"(?<![\w.'₀-₉-])([A-Za-z_][\w'₀-₉-]*)", lambda k: to.get(k.group(1), k.group(1)), body)
            word = 'invariant' if kind == 'Inv' else 'decreases'
            invariants.append(f'abbrev pub {word}-{new} : goal.{word}-{new}\n{un or ""}{word}-{new} l = {lay(body)}\n')
            continue
        others.append(piece)
    answers = []
    helper, became, inline = {}, {}, {}
    rest = []
    for piece in others:
        m = re.match(r"([\w'-]+) : \(c : own\.Tie\.Start[^)]*\)\s*→ ([^\n]*)\n\1 c =\s*(.*)$", piece, re.S)
        if m:
            inline[m.group(1)] = (m.group(2), m.group(3))
            continue
        m = re.match(r"([\w'-]+) : own\.[^\n]*(?:\n[ \t]+[^\n]*)*\n(unfolding [^\n]*\n)?\1 c((?: [\w'-]+)*) =\s*(.*)$", piece, re.S)
        if m:
            helper[m.group(1)] = (m.group(2) or '', m.group(3), m.group(4))
        else:
            rest.append(piece)
    for k, ((old, new), term) in enumerate(zip(names.needs, terms)):
        un = unfold
        names.stand(k)
        if term.startswith('('):
            term = term[1:closing(term, 0)].strip()
        if re.fullmatch(r"[\w'-]+", term) and term in helper:
            became[term] = new
            un, term = helper[term][0] or unfold, f'λ c{helper[term][1]}. {helper[term][2]}'
        if PLAIN.match(term) and (not un or re.match(r'overflow|shape_of|bounds|offset|nonzero', new)):
            continue
        m = re.match(r"^λ (\w+)((?: [\w'-]+)*)\.\s*(.*)$", term, re.S)
        if not m:
            return f'answer of {new}: {term[:60]}'
        if ' κs' in m.group(2) and re.search(r'\bκs\b', m.group(3)):
            return f'answer of {new} uses κs'
        body = translate(m.group(3), names, m.group(1))
        if m.group(2).replace(' κs', ''):
            body = f"λ{m.group(2).replace(' κs', '')}. {body}"
        asked = names.asked.get(old)
        if asked is None and new.endswith('requires') or old.split('-requires')[0] != old:
            callee = old.split('-requires')[0].replace('-', '_')
            callee = names.callee.get(names.field.get(callee, callee), re.sub(r'\d+$', '', callee))
            asked = asked or known.get(callee.split("::")[-1] if callee not in known else callee, {}).get('requires') or None
        if asked:
            body = by_clause(body, asked)
        for name, (type_, proof_) in inline.items():
            if re.search(rf"(?<![\w.'-]){name} c(?![\w'.-])", body):
                body = f'let {name} : {type_} = {proof_} in ' + re.sub(rf"(?<![\w.'-]){name} c(?![\w'.-])", name, re.sub(rf"\({name} c\)", name, body))
        answers.append(f'pub {new} : goal.{new}\n{un}{new} c = {lay(body)}\n')
    for old, new in became.items():
        answers = [re.sub(rf"(?<![\w.'-]){re.escape(old)} c(?![\w'.-])", f'{new} c', a) for a in answers]
        cites = [a for a in answers if f'{new} c' in a and not a.startswith(f'pub {new} ')]
        answers = [a for a in answers if a not in cites] + cites
    base = f"Rattle.{crate}.proofs.{'.'.join(folder.relative_to(pathlib.Path('crates') / crate / 'proofs').parts)}"
    kept = [i for i in imports if not re.match(rf'use {re.escape(base)} as own$', i)]
    block = '\n'.join(rest)
    if re.search(r'\bown\.', block):
        return 'a helper cites own'
    if invariants:
        body = '\n'.join(invariants)
        (folder / 'Invariants.antt').write_text('\n'.join(comments + kept + [f'use {base}.Given as goal', '', body.rstrip()]) + '\n')
    if answers or rest:
        parts = ['\n'.join(([] if invariants else comments) + with_rules(kept, ' '.join(answers)) + [f'use {base}.Goals as goal'])] + [r + '\n' for r in rest] + answers
        (folder / 'Answers.antt').write_text('\n\n'.join(p.rstrip('\n') for p in parts) + '\n')
    proof.unlink()
    return None


def params_of(function, names_of):
    for entry in names_of.values():
        if isinstance(entry, dict):
            for callee, params in entry.get('params', {}).items():
                if callee.split('::')[-1] == function:
                    return params
    return None


def turn_cycle(crate, folder, names_of, known):
    proof = folder / 'Proof.antt'
    text = proof.read_text()
    base = f"Rattle-{crate}-proofs.{folder.name}.Lts-"
    entries = {k[len(base):]: v for k, v in names_of.items() if k.startswith(base)}
    if not entries:
        return 'no names'
    spec = re.search(r'(?m)^pub \+[\w+]+_spec :[^\n]*(?:\n[ \t]+[^\n]*)*?\n(unfolding [^\n]*\n)?(?=\+)', text)
    if not spec:
        return 'no spec'
    unfold = spec.group(1) or ''
    m = re.compile(r'\bclose\b').search(text, spec.end())
    after = text[m.end():]
    terms = split_terms(after)
    if 'λ' in terms:
        last = terms.index('λ')
        terms = terms[:last] + [f"({' '.join(terms[last:])})"]
    terms = [x for x in terms if not re.match(r'^(Inv|μ)-', x)]
    pieces = [p for p in re.split(r'\n\s*\n', text[:spec.start()]) if p.strip()]
    imports, comments, others, invariants, answers = [], [], [], [], []
    many = len(entries) > 1
    for piece in pieces:
        keep = []
        for line in piece.split('\n'):
            if line.startswith('use '):
                imports.append(line)
            elif line.startswith('--'):
                comments.append(line)
            else:
                keep.append(line)
        piece = '\n'.join(keep).strip('\n')
        if not piece.strip():
            continue
        m = re.match(r"abbrev μ-([a-z0-9_-]+) : Measures[^\n]*\n(unfolding [^\n]*\n)?μ-[a-z0-9_-]+ κs a =\s*(.*)$", piece, re.S)
        if m:
            function = m.group(1).replace('-', '_')
            params = params_of(function, names_of)
            if params is None:
                return f'no parameters of {function}'
            body = re.sub(r"(?<![\w.])a((?:\.1)*)\.0", lambda k: 'l.' + params[k.group(1).count('1')], m.group(3))
            name = f'decreases-{function}'
            invariants.append(f'abbrev pub {name} : goal.{name}\n{m.group(2) or ""}{name} l = {lay(body)}\n')
            continue
        if re.match(r"abbrev [a-z0-9_-]+[-_](at|below|claims) :", piece):
            continue
        m = re.match(r"abbrev ([a-z0-9_-]+)-(Inv|μ)-(loop\d*) : [^\n]*\n(unfolding [^\n]*\n)?\1-\2-\3 ([^=]*)=\s*(.*)$", piece, re.S)
        if m:
            whose, kind, loop, un, params, body = m.groups()
            entry = entries[whose.replace('-', '_')]
            new, vars_, ch = {old: (new, v, c) for ((old, new), v), c in zip(entry['loops'], entry['changed'])}[loop]
            params, changed = params.split(), [v for v, c in zip(vars_, ch) if c]
            to = {p: ('l.initial.' if c else 'l.') + v for p, v, c in zip(params, vars_, ch)}
            to.update({p: 'l.' + v for p, v in zip(params[len(vars_):], changed)})
            body = re.sub(r"(?<![\w.'₀-₉-])([A-Za-z_][\w'₀-₉-]*)", lambda k: to.get(k.group(1), k.group(1)), body)
            name = f"{'invariant' if kind == 'Inv' else 'decreases'}-{whose.replace('-', '_') + '-' if many else ''}{new}"
            invariants.append(f'abbrev pub {name} : goal.{name}\n{un or ""}{name} l = {lay(body)}\n')
            continue
        others.append(piece)
    helper, became, rest = {}, {}, []
    for piece in others:
        m = re.match(r"([\w'-]+) :\s*\(t : ℕ\)[^=]*?\n(unfolding [^\n]*\n)?\1 t c((?: [\w'-]+)*) =\s*(.*)$", piece, re.S)
        if m:
            helper[m.group(1)] = (m.group(2) or '', m.group(3), m.group(4))
        else:
            rest.append(piece)
    functions = []
    for term in terms:
        term = term[1:closing(term, 0)].strip()
        m = re.match(r'λ t\.\s*([\w-]+)-lts\.spec\s', term)
        if not m:
            return f'term {term[:60]}'
        function = m.group(1).replace('-', '_')
        if function not in entries:
            return f'no names of {function} in {list(entries)}'
        names = Names(entries[function], f'{crate}::{function}', known)
        parts = split_terms(term[m.end():])[3:]
        while parts and re.match(r'^[a-z0-9_-]+-(Inv|μ)-loop\d*$', parts[0]):
            parts.pop(0)
        if len(parts) > len(names.needs):
            parts = aligned(parts, names.needs)
        if len(parts) != len(names.needs):
            return f'{function}: {len(parts)} answers for {len(names.needs)} goals: {[n for n, _ in names.needs]}'
        functions.append(function)
        for k, ((old, new), part) in enumerate(zip(names.needs, parts)):
            un = unfold
            names.stand(k)
            if part.startswith('('):
                part = part[1:closing(part, 0)].strip()
            h = re.match(r"^([\w'-]+)(?: t)?$", part)
            if h and h.group(1) in helper:
                became[h.group(1)] = f'{function}-{new}' if many else new
                un, part = helper[h.group(1)][0] or unfold, f'λ c{helper[h.group(1)][1]}. {helper[h.group(1)][2]}'
            if PLAIN.match(part) and (not un or re.match(r'overflow|shape_of|bounds|offset|nonzero', new)):
                continue
            m = re.match(r"^λ (\w+)((?: [\w'-]+)*)\.\s*(.*)$", part, re.S)
            if not m:
                return f'answer of {new}: {part[:60]}'
            body = translate(m.group(3), names, m.group(1), True)
            if m.group(2).replace(' κs', ''):
                body = f"λ{m.group(2).replace(' κs', '')}. {body}"
            callee = re.split(r'-requires', old)[0].replace('-', '_')
            asked = names.asked.get(old)
            if asked:
                body = by_clause(body, asked)
            name = f'{function}-{new}' if many else new
            answers.append(f'pub {name} : goal.{name}\n{un}{name} t c = {lay(body)}\n')
    for old, new in became.items():
        answers = [re.sub(rf"(?<![\w.'-]){re.escape(old)} t c(?![\w'.-])", f'{new} t c', a) for a in answers]
        cites = [a for a in answers if f'{new} t c' in a and not a.startswith(f'pub {new} ')]
        answers = [a for a in answers if a not in cites] + cites
    path = f'Rattle.{crate}.proofs.{folder.name}'
    kept = [i for i in imports if not re.match(r'use .*(\.(Reads|Kinds) as |\.Lts-\w+ as |\.Tie\.\{close\}|\.\{statement\})', i)]
    kept = [re.sub(r', (?:In|Measures|is|falls|and)(?=[,}])', '', i) if 'kit.specs.Names' in i else i for i in kept]
    block = '\n'.join(rest)
    if invariants:
        (folder / 'Invariants.antt').write_text('\n'.join(comments + kept + [f'use {path}.Given as goal', '', '\n'.join(invariants).rstrip()]) + '\n')
    parts = ['\n'.join(with_rules(kept, ' '.join(answers)) + [f'use {path}.Goals as goal'])] + [r + '\n' for r in rest] + answers
    (folder / 'Answers.antt').write_text('\n\n'.join(p.rstrip('\n') for p in parts) + '\n')
    proof.unlink()
    return None


def main():
    crate, file, *only = sys.argv[1:]
    names_of, known = json.loads(pathlib.Path(file).read_text()), clauses()
    for proof in sorted((pathlib.Path('crates') / crate / 'proofs').rglob('Proof.antt')):
        if only and proof.parent.name not in only:
            continue
        said = (turn_cycle if proof.parent.name.startswith('+') else turn)(crate, proof.parent, names_of, known)
        if said:
            print(f'{crate}: {proof.parent.name}: {said}')


if __name__ == '__main__':
    main()
