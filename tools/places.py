#!/usr/bin/env python3
"""Lists the places in crates/*/src that docs/DESIGN-PASS.md counts: tools/places.py [POINT..], at the top of the checkout.

Points: enums, flags, none, twins, loops, derives, converts, chains, facts, groups, answers. Each line is a place; each list ends with its count.
"""
import re
import sys
from collections import defaultdict
from pathlib import Path

SOURCES = sorted(Path('crates').glob('*/src/*.rt'))


def lines():
    for path in SOURCES:
        for number, line in enumerate(path.read_text().split('\n'), 1):
            yield path, number, line


def matching(pattern):
    return [f'{p}:{n}: {l.strip()}' for p, n, l in lines() if re.search(pattern, l)]


def functions():
    """Each function as path, line, name, parameters, clauses, body."""
    for path in SOURCES:
        text = path.read_text()
        for m in re.finditer(r'^( *)(?:pub )?(?:extern "C" )?fn (\w+)(?:<[^>]*>)?\((.*?)\)', text, re.M | re.S):
            end = text.find('\n' + m[1] + '}', m.end())
            rest = text[m.end():end]
            cut = re.search(r'\n' + m[1] + r'\{\n|\{\n', rest)
            if cut is None:
                continue
            yield path, text[:m.start()].count('\n') + 1, m[2], m[3], rest[:cut.start()], rest[cut.end():]


def twins():
    """Functions of two lines and more whose bodies are the same once names and numbers are taken away."""
    groups = defaultdict(list)
    for path, line, name, _, _, body in functions():
        bare = re.sub(r'//.*', '', body)
        shape = re.sub(r'\s+', ' ', re.sub(r"\b0x[0-9A-Fa-f_]+\b|\b\d[\d_]*\b", '0', re.sub(r"b'.'|b\"[^\"]*\"", '0', bare)))
        shape = re.sub(r'[A-Za-z_]\w*', lambda m: m[0] if m[0] in KEPT else 'x', shape).strip()
        if len(shape) >= 60:
            groups[shape].append(f'{path}:{line}: {name}')
    return [' = '.join(g) for g in groups.values() if len(g) > 1]


KEPT = {'if', 'else', 'for', 'in', 'while', 'loop', 'match', 'return', 'let', 'mut', 'as', 'true', 'false', 'break', 'continue'}


def loops():
    """Loops whose test reads a variable that the body changes by a constant."""
    found = []
    for path in SOURCES:
        text = path.read_text().split('\n')
        for i, line in enumerate(text):
            m = re.match(r'^( *)while (.*) \{$', line)
            if m is None:
                continue
            body = []
            for later in text[i + 1:]:
                if later == m[1] + '}':
                    break
                body.append(later)
            for name in re.findall(r'\b[a-z_]\w*\b', m[2]):
                if any(re.match(r'^ *' + name + r' [+-]= \d[\w *]*;', b) for b in body):
                    found.append(f'{path}:{i + 1}: {line.strip()}')
                    break
    return found


def chains():
    """Answers of bool written as returns, and tests inside a test with nothing else."""
    found = matching(r'^ *return (true|false);$')
    for path in SOURCES:
        text = path.read_text().split('\n')
        for i in range(len(text) - 1):
            if re.match(r'^ *if .*\{$', text[i]) and re.match(r'^ *if .*\{$', text[i + 1]):
                found.append(f'{path}:{i + 1}: {text[i].strip()}')
    return found


def facts():
    """Facts of `requires` that stand in three functions and more."""
    count = defaultdict(set)
    for path, _, name, _, clauses, _ in functions():
        for m in re.finditer(r'requires \{ (.*?) \}\n', clauses + '\n', re.S):
            for fact in re.split(r' × |\n *× ', m[1]):
                count[re.sub(r'\b(old|now)\b', 'now', fact.strip())].add(f'{path}:{name}')
    return [f'{len(where):3} {fact}' for fact, where in sorted(count.items(), key=lambda e: -len(e[1])) if len(where) >= 3]


def groups():
    """Three parameters side by side that stand in three functions and more."""
    count = defaultdict(set)
    for path, _, name, params, _, _ in functions():
        names = [p.strip() for p in params.split(',') if p.strip()]
        for i in range(len(names) - 2):
            count[', '.join(names[i:i + 3])].add(f'{path}:{name}')
    return [f'{len(where):3} {three}' for three, where in sorted(count.items(), key=lambda e: -len(e[1])) if len(where) >= 3]


def answers():
    """Answers that proof files give, by crate."""
    found = []
    for crate in sorted(p for p in Path('crates').iterdir() if (p / 'proofs').is_dir()):
        files = list(crate.glob('proofs/**/Answers.antt'))
        n = sum(len(re.findall(r'^pub [^\n]* : goal\.', f.read_text(), re.M)) for f in files)
        found += [f'{crate}: {n} answers'] if n else []
    return found


POINTS = {
    'enums': lambda: matching(r'^(pub )?enum '),
    'flags': lambda: matching(r'^ +(pub )?(answer|wrong|prints|onward|made|outcome|kind|before): (bool|usize|u8|Answer),'),
    'none': lambda: matching(r'^ *// .*; *(0|256|[A-Z]+|`count`|an empty part) (if|where|for|when) |^ *// .*(0 if it|0 where|0 if the|256 if|else NAMES|if none does|if none has|for a word that begins none)'),
    'twins': twins,
    'loops': loops,
    'derives': lambda: matching(r'^ *#\[derive\(Drop\)\]'),
    'converts': lambda: [f'{p}:{n}: {name}' for p, n, name, _, _, b in functions() if re.fullmatch(r' *[\w.]+ as \w+', b.strip())],
    'chains': chains,
    'facts': facts,
    'groups': groups,
    'answers': answers,
}


def main():
    for point in sys.argv[1:] or POINTS:
        places = POINTS[point]()
        print(f'== {point}')
        print('\n'.join(places))
        print(f'{point}: {len(places)}')


if __name__ == '__main__':
    main()
