#!/usr/bin/env python3
"""Spells the repository's own definitions and lemmas in snake case, as PORTING.md of the kit says in part 3.

usage: tools/respell.py [--list]      at the top of the repository, right after port.py

Own names are those that a file of specs/ or a file of lemmas in proofs/ declares: definitions, lemmas, fields, names under `where`.
A name that a file imports from a library stays there. Names of src/, of modules and of types stay, and so do the words that Rattle
makes. Turned are .antt, the clauses of .rt, must-fail/*.edit, fakes/*.fake and what stands between backquotes in documents.
--list prints the table and what falls together, and writes nothing.
"""
import collections
import re
import subprocess
import sys
from pathlib import Path

ROOT = Path(subprocess.run(['git', 'rev-parse', '--show-toplevel'], check=True, capture_output=True, text=True).stdout.strip())
WORD = r"[^\s(){}.;,@\"«»`]+"
TOKEN = re.compile(WORD)
DECLARED = re.compile(r'(?m)^[ \t]*(?:(?:pub|abbrev|unfoldable|instance|opaque) )*(?!--)((?:' + WORD + r' )*?' + WORD + r')(?: (?:\{[^{}\n]*\}|\([^()\n]*\)))* : ')
LOCAL = re.compile(r'\b(?:let|λ) (' + WORD + r')(?: : | = |\.| )')
RECORD = re.compile(r'(?m)^[ \t]*(?:(?:pub|abbrev|unfoldable) )*(?:record|data) (' + WORD + ')')
USE = re.compile(r'(?m)^[ \t]*(?:ghost )?use ([^\s;{]+?)\.?\{([^}]*)\}')
OF_A_FUNCTION = re.compile(r'/proofs/.+/(Proof|Answers|Invariants)\.antt$')
# What stands before a name that is named by its whole path.
OF_A_LIBRARY = re.compile(r'\b(?:native|mathlib|lib|Prim|borrow|denote|logic|Rattle\.std)(?:\.\w+)*\.$')
CLAUSE = re.compile(r'(?:requires|ensures)\*?(?: \w+)? \{|ghost \w+: \{|ghost invariant(?: \w+)? \{')
# Spelled with signs, or not as the rule would make it.
# The Rust's constants keep its spelling; the others would meet a name of a library or of src/ in their files.
FIXED = {
    'INF-BITS': 'INF_BITS',
    'MIN-POSITIVE': 'MIN_POSITIVE',
    'M-MAX': 'M_MAX',
    'MAX-REJECT': 'MAX_REJECT',
    'is-nan': 'nan_of_ne',
    'Job-of': 'JobOf',
    'Trying-on': 'TryingOn',
    'unitsOf': 'field_units',
    'in-a': 'is_in_a',
    'in-b': 'is_in_b',
}
LANDED = 'f0c2f236192485ba02c81ecac3dfbae3b0ceb644'
# Names bound in a clause of a definition or by `as`.
BOUND = '''m-max start-answer step-answer krylov-answer none-17 none-25 none-27 none-33 ranged-norm m-good a-good taylor-calls krylov-calls plan-ways
bytes-b bytes-c bytes-v bytes-o thetas-are stored-laws by-early fits-t fits-h fits-l combination-never-23 action-never-23 krylov-never-23 free-1
free-7'''.split()
STAY = {'-tiny', '-0', '-1', '-2', '-∞'}


def snake(name):
    if name in FIXED:
        return FIXED[name]
    turned = name.replace('getD', 'get_or')
    if turned.startswith('open-'):
        turned = 'open-' + turned[5:6].lower() + turned[6:]
    if not turned[0].isupper():
        turned = re.sub(r'(?<=[a-z0-9])[A-Z](?=[a-z])', lambda m: '_' + m[0].lower(), turned)
    turned = re.sub(r'(?<=[^-])-(?=[^-])', '_', turned)
    return turned.replace('′', "'")


def own_paths(crates):
    return tuple(f'Rattle.{c}.' for c in crates)


def files(pattern):
    return [p for p in sorted(ROOT.glob(pattern)) if '/out/' not in str(p)]


def imports(text, ours):
    """The names that a file imports from a library."""
    found = set()
    for path, names in USE.findall(text):
        if not (path + '.').startswith(ours):
            for name in names.split(','):
                found.update(name.split())
    return found


def table(crates):
    ours = own_paths(crates)
    own = collections.defaultdict(set)
    for path in files('crates/*/specs/**/*.antt') + files('crates/*/proofs/**/*.antt'):
        if OF_A_FUNCTION.search(str(path)):
            continue
        text = re.sub(r'--[^\n]*', '', path.read_text(encoding='utf-8'))
        there = imports(text, ours)
        for found in DECLARED.findall(text):
            for name in found.split():
                if name not in there:
                    own[name].add(path)
        for name in RECORD.findall(text):
            own[name].add(path)
        for name in LOCAL.findall(text):
            if name not in there:
                own[name].add(path)
    own.update({name: set() for name in BOUND})
    return {old: snake(old) for old in own if old not in STAY and re.search('[A-Za-z⋖⩽0-9]', old) and '◌' not in old and snake(old) != old}


def turned(text, names, stay):
    def one(m):
        word = m[0]
        if word in names and word not in stay and not OF_A_LIBRARY.search(text, max(0, m.start() - 80), m.start()):
            return names[word]
        return word
    return TOKEN.sub(one, text)


def clauses(text):
    """The spans of a .rt file that antt reads."""
    for m in re.finditer(r'ghost use [^;]*;', text):
        yield m.span()
    for m in CLAUSE.finditer(text):
        depth, at = 1, m.end()
        while depth:
            depth += {'{': 1, '}': -1}.get(text[at], 0)
            at += 1
        yield m.end(), at


def told_apart(path, text):
    """port.py made one name of the field `in-b` and the Rust's field `in_b`: the places of the first get its new name."""
    name = str(path.relative_to(ROOT))
    if not name.startswith('crates/join'):
        return text
    landed = subprocess.run(['git', 'show', f'{LANDED}:{name}'], cwd=ROOT, capture_output=True, text=True).stdout
    was = re.findall(r'(?<![\w-])in[-_]b(?![\w-])', landed)
    now = re.findall(r'(?<![\w-])in[-_]b(?![\w-])', text)
    if len(was) != len(now):
        sys.exit(f'{name}: {len(was)} and {len(now)} places of in-b and in_b')
    each = iter(was)
    return re.sub(r'(?<![\w-])in[-_]b(?![\w-])', lambda m: {'in-b': 'is_in_b', 'in_b': 'in_b'}[next(each)], text)


def main():
    crates = [line.split(':')[0].strip() for line in (ROOT / 'crates.txt').read_text().splitlines() if ':' in line and not line.startswith('#')]
    ours = own_paths(crates)
    names = table(crates)
    met = collections.defaultdict(list)
    for old, new in names.items():
        met[new].append(old)
    for new, olds in sorted(met.items()):
        if len(olds) > 1:
            print('together:', ', '.join(sorted(olds)), '->', new)
    for path in files('crates/**/*.antt') + files('crates/**/*.rt'):
        text = path.read_text(encoding='utf-8')
        words = set(TOKEN.findall(text))
        for word in sorted(words & set(names)):
            if names[word] in words:
                print(f'meets: {path.relative_to(ROOT)}: {word} and {names[word]}')
    if sys.argv[1:] == ['--list']:
        for old, new in sorted(names.items()):
            print(old, new)
        return
    for path in files('crates/**/*.antt'):
        text = path.read_text(encoding='utf-8')
        text = told_apart(path, text)
        new = turned(text, names, imports(text, ours))
        if new != text:
            path.write_text(new, encoding='utf-8')
    for path in files('crates/*/src/**/*.rt'):
        text = path.read_text(encoding='utf-8')
        stay, out, at = imports(text, ours), [], 0
        for begin, end in sorted(clauses(text)):
            out += [text[at:begin], turned(text[begin:end], names, stay)]
            at = end
        new = ''.join(out) + text[at:]
        if new != text:
            path.write_text(new, encoding='utf-8')
    for path in files('crates/*/must-fail/*.edit') + files('fakes/*.fake'):
        text = path.read_text(encoding='utf-8')
        new = turned(text, names, set())
        if new != text:
            path.write_text(new, encoding='utf-8')
    for path in [ROOT / 'README.md', ROOT / 'CONTRIBUTING.md', ROOT / 'fakes/README.md', *files('docs/*.md')]:
        text = path.read_text(encoding='utf-8')
        new = re.sub(r'`[^`\n]+`', lambda m: turned(m[0], names, set()), text)
        if new != text:
            path.write_text(new, encoding='utf-8')


if __name__ == '__main__':
    main()
