#!/usr/bin/env python3
"""Respells this repository's own definitions and lemmas as today's Rattle spells names.

Functions, lemmas, fields and constructors of specs/ and proofs/ are in snake case, and types in upper
camel case; names that a `ghost use` gives by `as` are in snake case. Functions of src/, names that
Rattle makes (goals, generated records), names of the libraries, strings and comments stay.

    python3 tools/respell.py            respell every crate below the working folder
    python3 tools/respell.py --list     print each name with its new spelling, and names that fall together
"""
import glob
import os
import re
import sys

SPLIT = re.compile(r'([\s(){}\[\];.,]+)')
HEAD = re.compile(r'^(?:(?:pub|abbrev|unfoldable|mutual)\s+)*(data\s+|record\s+)?([^\s:(){}\[\].,;]+)')


def antt_files():
    return sorted(glob.glob('crates/*/specs/**/*.antt', recursive=True) + glob.glob('crates/*/proofs/**/*.antt', recursive=True))


def declarations(text):
    """The names that a file declares: each with whether it is a type."""
    lines = text.split('\n')
    found = []
    i = 0
    while i < len(lines):
        line = lines[i]
        if not line or line[0] in ' \t' or line.startswith('--') or line.startswith('use ') or re.match(r'(pub )?mod |infix|ruleset|unfolding', line):
            i += 1
            continue
        j = i + 1
        while j < len(lines) and (lines[j].startswith(' ')):
            j += 1
        block = ' '.join(lines[i:j])
        m = HEAD.match(line)
        if m and m.group(1):
            found.append((m.group(2), True))
            for l in lines[i + 1:j]:
                f = re.match(r'^\s+(?:pub\s+)?([^\s:(){}\[\].,;]+)\s*:(?!=)', l)
                if f:
                    found.append((f.group(1), False))
                    FIELDS.add(f.group(1))
        elif m and re.match(r'^[^={}()]*?%s(\s*[({].*?[)}])*\s+:\s' % re.escape(m.group(2)), block + ' '):
            sign = block.split(' : ', 1)[1]
            if not re.match(r'goal\.', sign.strip()):
                found.append((m.group(2), sign.strip().endswith('Type 0') or sign.strip() == 'Type'))
        i = j
    return found + inner_declarations(lines)


def inner_declarations(lines):
    """The names that are declared in a module inside a file: each with whether it is a type."""
    if not any(re.match(r'\s*module _', line) for line in lines):
        return []
    found = []
    for i, line in enumerate(lines):
        m = re.match(r"^(\s+)(?:(?:pub|abbrev|unfoldable)\s+)*([A-Za-z_][^\s:(){}\[\].,;=]*)\s:\s(.*)$", line)
        if not m or m.group(2) == 'let':
            continue
        j = i + 1
        while j < len(lines) and lines[j].startswith(m.group(1) + ' '):
            j += 1
        sign = ' '.join([m.group(3)] + lines[i + 1:j]).strip()
        if not sign.startswith('goal.'):
            found.append((m.group(2), sign.endswith('Type 0') or sign == 'Type'))
    return found


def snake(name):
    name = name.replace('-', '_')
    return re.sub(r'(?<=[a-z0-9])([A-Z])', lambda m: '_' + m.group(1).lower(), name)


def camel(name):
    return ''.join(p[:1].upper() + p[1:] for p in name.split('-'))


def table():
    names = {}
    for f in antt_files():
        for name, is_type in declarations(open(f).read()):
            if is_type:
                new = camel(name) if name[0].isupper() else snake(name)
            elif name[0].isupper():
                new = name
            else:
                new = snake(name)
            if '◌' in name or not re.match(r'^[A-Za-z_]', name):
                new = name
            if names.get(name, new) != new:
                print('two spellings of', name, names[name], new, f, file=sys.stderr)
            names.setdefault(name, new)
    return {a: b for a, b in names.items() if a != b}


def aliases(text):
    """The names that a file's own `ghost use` lines give by `as`."""
    made = {}
    for line in re.findall(r'^ghost use [^;]*;|^\s*use Rattle[^\n]*', text, re.M):
        for new in re.findall(r' as ([a-z][A-Za-z_0-9-]*)', line):
            if snake(new) != new:
                made[new] = snake(new)
    return made


def libraries(text):
    """The names that a file imports from a library, which stay."""
    kept = set()
    for path, items in re.findall(r'(\S+)\.\{([^}]*)\}', text):
        if not re.match(r'Rattle\.(%s)\.' % '|'.join(CRATES), path) or '.Goals' in path or '.Given' in path:
            for item in items.split(','):
                kept.add(item.strip().split(' as ')[-1].strip())
    return kept


def respell_tokens(code, names, bases=None):
    """Each name in its new spelling; behind a dot only a field, a function's step, or a name of a module."""
    parts = SPLIT.split(code)
    for k in range(0, len(parts), 2):
        if bases is not None and k > 1 and parts[k - 1] == '.' and parts[k] not in FIELDS:
            if parts[k - 2] not in bases and names.get(parts[k]) not in FUNCTIONS:
                continue
        parts[k] = names.get(parts[k], parts[k])
    return ''.join(parts)


def respell_antt(text, names):
    bases = set(re.findall(r' as ([a-z][A-Za-z_0-9-]*)', text)) - {'goal'}
    bases |= set(m.split('.')[-1] for m in re.findall(r'^use (\S+)$', text, re.M))
    out = []
    for line in text.split('\n'):
        code, mark, rest = line.partition('--') if re.match(r'^\s*--', line) else (line, '', '')
        m = re.match(r'^((?:pub )?use (?:Rattle\.std|mathlib|Prim|lib)\b.*)$', code)
        out.append((code if m else respell_tokens(code, names, None if code.startswith('use ') else bases)) + mark + rest)
    return '\n'.join(out)


def respell_source(text, names):
    out = []
    for line in text.split('\n'):
        if re.match(r'^\s*//', line) or re.match(r'^ghost use Rattle\.std', line):
            out.append(line)
            continue
        pieces = re.split(r'("(?:[^"\\]|\\.)*"|//.*$)', line)
        out.append(''.join(p if k % 2 else respell_tokens(p, names) for k, p in enumerate(pieces)))
    return '\n'.join(out)


FIELDS = set()
FUNCTIONS = set(f for p in glob.glob('crates/*/src/**/*.rt', recursive=True) for f in re.findall(r'fn ([a-z_0-9]+)', open(p).read()))
CRATES = [os.path.basename(c) for c in sorted(glob.glob('crates/*'))]


def main():
    names = table()
    show = '--list' in sys.argv
    if show:
        for a, b in sorted(names.items()):
            print(a, b)
    for f in antt_files() + sorted(glob.glob('crates/*/src/**/*.rt', recursive=True)) + sorted(glob.glob('crates/*/must-fail/*.edit')):
        text = open(f).read()
        own = dict(names)
        own.update(aliases(text))
        for k in libraries(text):
            own.pop(k, None)
        tokens = set(SPLIT.split(text))
        for t in sorted(tokens):
            if t in own and own[t] in tokens:
                print('falls together in', f, ':', t, own[t], file=sys.stderr)
        new = respell_antt(text, own) if f.endswith('.antt') else respell_source(text, own)
        if new != text and not show:
            open(f, 'w').write(new)


main()
