#!/usr/bin/env python3
"""Respells the repository's own words of specs/ and proofs/ in snake case: python3 tools/respell.py, once, at the top, after port.py.

It was run once, when the repository was brought to today's Rattle (docs/PORT.md), and is kept so that the step can be made again.
Functions of src/, exported names, strings and inputs keep their names. Definitions and lemmas that begin with a small letter and have
a capital within a part of their name get an underscore there; facts, types and modules keep their capitals.
"""
import glob
import re
import subprocess

DEFINED = re.compile(r"\s*(?:(?:pub|abbrev|unfoldable)\s+)*(?:record |data )?([^\s(){}.;,:]+)\s+(?::|\()")
WORD = re.compile(r"[A-Za-z_][A-Za-z0-9_']*(?:-[A-Za-z0-9_']+)*")
# Two words that would fall together with a constructor or a field of the same file.
OTHER = {'tooMany': 'too_many_rows', 'inOrder': 'key_in_order', 'cutShort': 'cut_short_run'}


def snake(name):
    parts = []
    for part in name.split('-'):
        if part[:1].islower():
            part = re.sub(r'([a-z0-9])([A-Z])', lambda m: m.group(1) + '_' + m.group(2).lower(), part)
            part = re.sub(r'_([A-Z])', lambda m: '_' + m.group(1).lower(), part)
        parts.append(part)
    return '-'.join(parts)


def is_camel(name):
    return any(re.match(r'[a-z]', p) and re.search(r'[a-z0-9][A-Z]', p) for p in name.split('-'))


def swap(text, table):
    return WORD.sub(lambda m: table.get(m.group(0), m.group(0)), text)


def main():
    listed = subprocess.run(['git', 'ls-files', '--cached', '--others', '--exclude-standard'], capture_output=True, text=True, check=True)
    files = [f for f in listed.stdout.split('\n') if f]
    antt = [f for f in files if f.endswith('.antt')]
    texts = {f: open(f, encoding='utf-8').read() for f in antt}

    camel = set()
    for text in texts.values():
        for line in text.split('\n'):
            m = DEFINED.match(line)
            if m and is_camel(m.group(1)):
                camel.add(m.group(1))
    table = {n: OTHER.get(n, snake(n)) for n in camel}
    new = set(table.values())
    assert len(new) == len(table), 'two words fall together'

    # A lemma, in proofs/, that has the name that a definition gets: it gets _lem, where it is made and wherever it is brought in.
    # A field or a constructor keeps its name.
    lemma_files = {}
    for f, text in texts.items():
        if '/proofs/' not in f:
            continue
        for line in text.split('\n'):
            m = re.match(r"\s*(?:pub )?([a-z][A-Za-z0-9_'-]*) : ", line)
            if m and m.group(1) in new:
                folder = f.split('/proofs/')[1].split('/')
                if len(folder) > 1 and m.group(1) in folder[:-1]:
                    continue
                lemma_files.setdefault(m.group(1), set()).add(f)
    changed = 0
    for f in files:
        if not (re.match(r'crates/.*\.(antt|rt|edit)$', f) or f.endswith('must-fail/cases') or re.match(r'docs/.*\.md$', f) or f == 'CONTRIBUTING.md'):
            continue
        text = texts[f] if f in texts else open(f, encoding='utf-8').read()
        old = text
        if f.endswith('.antt'):
            local = {}
            for name, where in lemma_files.items():
                brought = any(re.search(r'use ' + re.escape(module(w)) + r'\.\{[^}]*(?<![\w-])' + name + r'(?![\w-])', text) for w in where)
                if f in where or brought:
                    local[name] = name + '_lem'
            # The lemma's name, but not a field's: `r.name` and `name = ` stay.
            if local:
                text = WORD.sub(lambda m: local.get(m.group(0), m.group(0)) if not is_field(text, m) else m.group(0), text)
        text = swap(text, table)
        if text != old:
            open(f, 'w', encoding='utf-8').write(text)
            changed += 1
    print(f'{len(table)} words respelled in {changed} files')


def module(path):
    crate, rest = re.match(r'crates/([^/]+)/(.*)\.antt$', path).groups()
    return 'Rattle.' + crate + '.' + rest.replace('/', '.')


def is_field(text, m):
    before = text[max(0, m.start() - 1):m.start()]
    after = text[m.end():m.end() + 3]
    return before == '.' or after == ' = '


if __name__ == '__main__':
    main()
