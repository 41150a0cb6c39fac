#!/usr/bin/env python3
"""Spells the repository's own definitions, lemmas and fields as today's Rattle does: snake case, a dash only between
two names of definitions, an apostrophe for a prime. It is run once, after the toolchain's port.py.

    tools/respell.py          rewrites crates/*/specs, crates/*/proofs, the clauses of crates/*/src and the docs
    tools/respell.py --names  prints the names that change, old and new, and what is left since two would fall together
"""
import pathlib
import re
import sys

TOP = pathlib.Path(__file__).resolve().parent.parent
# Names of the toolchain's library that have a capital inside.
KEPT = {'naN', 'getD'}
# What the library calls a function: a dash may stand between two of these and names of definitions.
LIBRARY = set('''length map take drop append replicate set get_or sum zip reverse min max mod div add mul sub neg
le_z lt_z quot_z cond eqb ltb leb pow'''.split())
WORD = re.compile(r"[^\s(){}\[\]⟨⟩.,;:λ∷`\"]+")
DECLARED = re.compile(r"^\s*(?:abbrev |unfoldable )?(?:pub )?((?:[a-z][^\s(){}.,;:]*)(?: [a-z][^\s(){}.,;:]*)*) :(?!=)")
DEFINED = re.compile(r'^\s*(?:abbrev |unfoldable )(?:pub )?([a-z][^\s(){}.,;:]*) :')


def lemma_files():
    for crate in sorted((TOP / 'crates').iterdir()):
        for part in ('specs', 'proofs'):
            yield from sorted((crate / part).glob('*.antt'))


def snake(name):
    name = name.replace('′', "'").replace('F64', '_f64')
    name = re.sub(r'(?<=[a-z0-9])([A-Z])', lambda m: '_' + m.group(1).lower(), name)
    return re.sub(r'__+', '_', name)


def names():
    declared, defined = set(), set(LIBRARY)
    for path in lemma_files():
        for line in path.read_text().split('\n'):
            if line.lstrip().startswith(('--', 'use ')):
                continue
            m = DECLARED.match(line)
            if m:
                declared.update(m.group(1).split())
            m = DEFINED.match(line)
            if m:
                defined.add(snake(m.group(1)))
    turned, left = {}, []
    for name in sorted(declared):
        if name in KEPT:
            continue
        parts = [snake(part) for part in name.split('-')]
        new = parts[0]
        for before, after in zip(parts, parts[1:]):
            new += ('-' if before in defined and after in defined else '_') + after
        if new != name:
            turned[name] = new
    by_new = {}
    for name, new in turned.items():
        by_new.setdefault(new, []).append(name)
    # Where two fall together, the definition has the name and the lemma gets _lem, as the library does it.
    for new, olds in by_new.items():
        if len(olds) > 1:
            for name in olds:
                if '-' in name:
                    turned[name] = new + '_lem'
        elif new in declared:
            turned[new] = new + '_lem'
    news = list(turned.values())
    for name, new in list(turned.items()):
        if news.count(new) > 1 or (new in declared and new not in turned):
            left.append((name, new))
    # A file where the new name already stands, as a variable: there the two would fall together.
    for path in sorted((TOP / 'crates').rglob('*.antt')):
        lines = [line for line in path.read_text().split('\n') if not line.lstrip().startswith('--')]
        text = re.sub(r'"[^"]*"', '', '\n'.join(lines))
        words = {m.group(0) for m in WORD.finditer(text) if text[m.start() - 1:m.start()] != '.'}
        for name in words & set(turned):
            if turned[name] in words and turned[name] not in turned:
                left.append((name, turned[name] + ' in ' + str(path.relative_to(TOP))))
    return turned, left


def turn(text, turned):
    def one(m):
        word = m.group(0)
        if word in turned and word == word.lower() and '-' not in word and text[m.start() - 1:m.start()] == '.':
            return word
        return turned.get(word, word)
    return WORD.sub(one, text)


def turn_antt(text, turned):
    out = []
    camel = {a: b for a, b in turned.items() if '-' not in a and a != a.lower()}
    for line in text.split('\n'):
        at = re.search(r'(?:^|\s)--(?:\s|$)', line)
        if at:
            out.append(turn(line[:at.start()], turned) + turn(line[at.start():], camel))
        else:
            out.append(turn(line, turned))
    return '\n'.join(out).replace('′', "'")


def turn_rt(text, turned):
    """Only clauses and imports: a clause stands between the braces of requires, ensures or ghost."""
    out, depth, inside = [], 0, False
    camel = {a: b for a, b in turned.items() if '-' not in a and a != a.lower()}
    for line in text.split('\n'):
        if re.match(r'\s*//', line):
            out.append(turn(line, camel))
            continue
        if not inside and re.match(r'\s*(pub )?(ghost|requires|ensures)\b', line):
            inside, depth = True, 0
        if inside:
            line = turn(line, turned).replace('′', "'")
            depth += line.count('{') - line.count('}')
            if depth <= 0 and ('}' in line or ';' in line):
                inside = False
        out.append(line)
    return '\n'.join(out)


def main():
    turned, left = names()
    if '--names' in sys.argv:
        for name, new in sorted(turned.items()):
            print(name, new)
        for name, new in sorted(left):
            print('left:', name, new)
        return
    for path in sorted((TOP / 'crates').rglob('*.antt')):
        text = path.read_text()
        new = turn_antt(text, turned)
        if new != text:
            path.write_text(new)
    for path in sorted((TOP / 'crates').glob('*/src/**/*.rt')):
        text = path.read_text()
        new = turn_rt(text, turned)
        if new != text:
            path.write_text(new)
    for path in sorted((TOP / 'docs').glob('*.md')) + [TOP / 'README.md']:
        text = path.read_text()
        new = re.sub(r'`[^`\n]*`', lambda m: turn(m.group(0), turned).replace('′', "'"), text)
        if new != text:
            path.write_text(new)


main()
