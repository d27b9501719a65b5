#!/usr/bin/env python3
"""The places of docs/DESIGN-PASS.md, counted in the sources of all crates: run it at the top of a checkout.

Each count is a list: with a point's number as argument its places are printed, one a line."""
import glob
import re
import sys
from collections import defaultdict

SOURCES = sorted(glob.glob('crates/*/src/**/*.rt', recursive=True))
TESTS = ('random', 'second', 'test_')


def crate_of(path):
    return path.split('/')[1]


def product(path):
    return not crate_of(path).startswith(TESTS)


def lines_of(path):
    return open(path, encoding='utf-8').read().split('\n')


def functions(path):
    """Each function of a file: its line, name, parameters and body, with clauses and comments left out."""
    text = '\n'.join('' if l.strip().startswith('//') else l for l in lines_of(path))
    for m in re.finditer(r'^( *)(?:pub(?:\(crate\))? )?fn (\w+)(?:<[^>]*>)?\(', text, re.M):
        depth, at = 1, m.end()
        while depth:
            depth += {'(': 1, ')': -1}.get(text[at], 0)
            at += 1
        params = text[m.end():at - 1]
        opened = re.compile(r'^' + m.group(1) + r'\{|\{$', re.M)
        begin = text.find('\n' + m.group(1) + '{\n', at)
        same_line = text.find('{\n', at)
        if begin < 0 or (same_line >= 0 and '\n' not in text[at:same_line].rstrip('{') and same_line < begin):
            begin = same_line - 1
        end = text.find('\n' + m.group(1) + '}', begin)
        yield text[:m.start()].count('\n') + 1, m.group(2), params, text[begin:end]


def found(pattern, among=SOURCES):
    rule = re.compile(pattern)
    for path in among:
        for n, line in enumerate(lines_of(path), 1):
            if rule.search(line):
                yield f'{path}:{n}: {line.strip()}'


def option_shapes():
    """1: own enums, and a number or an outcome that stands beside values in a struct; sentinels told in a comment."""
    yield from found(r'^(pub )?enum ')
    yield from found(r'^ +(pub )?(number|outcome): (u8|Outcome),')
    yield from found(r'^ *//.*(one more than the room| or [nm] if none|, or the length\.|, or 0\b.*number|The number of a refusal, or 0)')


def twins():
    """2: functions with bodies of three lines or more that are equal once each name and number is one and the same."""
    shapes = defaultdict(list)
    for path in SOURCES:
        for n, name, params, body in functions(path):
            if len(body.strip().split('\n')) < 3:
                continue
            shape = re.sub(r'\s+', ' ', re.sub(r'\b\w+\b', lambda m: m.group(0) if m.group(0) in KEYWORDS else 'x', body))
            shapes[shape].append(f'{path}:{n}: {name}')
    for places in shapes.values():
        if len(places) > 1:
            yield ' = '.join(places)


KEYWORDS = {'let', 'mut', 'if', 'else', 'while', 'for', 'in', 'return', 'match', 'loop', 'break', 'true', 'false'}


def loops():
    """3: loops that are no `for`."""
    yield from found(r'^\s*(while |loop \{)|: loop \{')


def by_hand():
    """4: types that copy and have no derived equality, and functions that compare, make none or convert by hand."""
    yield from found(r'^#\[derive\(Clone, Copy\)\]')
    yield from found(r'^ *(pub(\(crate\))? )?fn (same\w*|none|no_\w+|zero_\w+|more|wide|small|copy\w*|is_byte|larger|smaller)\(')


def together():
    """5: pairs of parameters (name and type) that stand together in three functions or more of the product."""
    pairs = defaultdict(list)
    for path in filter(product, SOURCES):
        for n, name, params, body in functions(path):
            ps = sorted({re.sub(r'\s+', ' ', p.strip()) for p in re.split(r',(?![^\[(<]*[\])>])', params) if ':' in p})
            for i, one in enumerate(ps):
                for other in ps[i + 1:]:
                    pairs[f'{one} + {other}'].append(f'{crate_of(path)}::{name}')
    for pair, places in sorted(pairs.items(), key=lambda p: -len(p[1])):
        if len(places) > 2:
            yield f'{len(places)} {pair}: {", ".join(places)}'


def buffers():
    """6: functions that take a lent buffer and a place or a length beside it."""
    for path in filter(product, SOURCES):
        for n, name, params, body in functions(path):
            if re.search(r'&mut \[u8\]', params) and re.search(r'\b(at|done|end): usize', params):
                yield f'{path}:{n}: {name}'


def switches():
    """7: a function pointer, a dyn value, or a parameter that chooses a step."""
    yield from found(r'\bdyn |: fn\(|fn\(\w+\) ->.*;')


def answers():
    """8: files of answers in the crates."""
    for path in sorted(glob.glob('crates/*/proofs/**/Answers.antt', recursive=True)):
        goals = len(re.findall(r'^pub [\w-]+ :', open(path, encoding='utf-8').read(), re.M))
        yield f'{path}: {goals}'


POINTS = [option_shapes, twins, loops, by_hand, together, buffers, switches, answers]

if __name__ == '__main__':
    chosen = [int(a) for a in sys.argv[1:]]
    for number, point in enumerate(POINTS, 1):
        places = list(point())
        if number in chosen:
            print('\n'.join(places))
        elif not chosen:
            here = [p for p in places if product(p)] if number in (1, 3, 4) else places
            print(f'{number} {len(places)}' + (f' ({len(here)} in the product)' if number in (1, 3, 4) else '') + f': {point.__doc__[3:]}')
