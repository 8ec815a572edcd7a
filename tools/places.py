#!/usr/bin/env python3
"""Counts, in crates/*/src of a commit, the places of each point of docs/DESIGN-PASS.md that a text shows.

    python3 tools/places.py [COMMIT] [--list]

Without a commit it reads the work tree. What only a reader sees (that two functions are twins, say) the page lists by hand."""
import collections
import pathlib
import re
import subprocess
import sys

args = [a for a in sys.argv[1:] if not a.startswith('--')]
listed = '--list' in sys.argv


def sources():
    if not args:
        for p in sorted(pathlib.Path('crates').glob('*/src/**/*.rt')):
            yield str(p), p.read_text()
        return
    names = subprocess.run(['git', 'ls-tree', '-r', '--name-only', args[0], 'crates'], capture_output=True, text=True, check=True).stdout.split()
    for name in names:
        if re.search(r'/src/.*\.rt$', name):
            yield name, subprocess.run(['git', 'show', f'{args[0]}:{name}'], capture_output=True, text=True, check=True).stdout


FILES = {name: text for name, text in sources()}


def grep(pattern, skip=None):
    found = []
    for name, text in FILES.items():
        for number, line in enumerate(text.split('\n'), 1):
            if line.lstrip().startswith('//') or (skip and re.search(skip, line)):
                continue
            if re.search(pattern, line):
                found.append(f'{name}:{number}: {line.strip()}')
    return found


def functions():
    """(file, name, parameters, clauses) of each function."""
    for name, text in FILES.items():
        for m in re.finditer(r'fn (\w+)(?:<[^(]*>)?\(([^{]*?)\)([^{]*?(?:(?:requires|ensures)[^\n]*\{.*?\}\s*)*)\n?\s*\{', text, re.S):
            yield name, m.group(1), m.group(2), m.group(3)


def many_line(pattern):
    found = []
    for name, text in FILES.items():
        for m in re.finditer(pattern, text, re.S):
            found.append(f'{name}:{text.count(chr(10), 0, m.start()) + 1}: {" ".join(m.group(0).split())[:110]}')
    return found


def repeated(items):
    where = collections.defaultdict(list)
    for key, place in items:
        where[key].append(place)
    return [f'{len(v)} times: {k}' for k, v in sorted(where.items()) if len(v) >= 3]


def clause_facts():
    for name, text in FILES.items():
        for m in re.finditer(r'(requires|ensures)(?: \w+)? \{ (.*) \}', text):
            fact = re.sub(r'\bself\.(old|now|new)\.?', 'self.', m.group(2))
            if m.group(1) == 'requires' or re.search(r'\.new\.\w+ ≡ \w+\.old\.\w+$', m.group(2)):
                yield fact, name


def together():
    for name, fn, params, _ in functions():
        names = [re.sub(r'^(mut )?', '', p.split(':')[0].strip()) for p in params.split(',') if ':' in p]
        for size in (3, 4):
            for i in range(len(names) - size + 1):
                yield ', '.join(names[i:i + size]), f'{name} {fn}'


POINTS = [
    ('1 results that are number codes, or a flag or value beside another', lambda: grep(r'Result<.*, u(8|16|32)>') + grep(r'-> \(u(8|16|32), u(8|16|32)\)') + grep(r'next_line\(&mut self\) -> io::Result<bool>')
        + grep(r'\b(0|255|99) *(=>|where|if) *(none|nothing|no )') + many_line(r'Ok\(_\) => [01],\s*Err')),
    ('1 enum, or a match, of the shape of Option or Result', lambda: many_line(r'match [^{\n]*\{\s*(Some|Ok)\((\w+)\) => (Some|Ok)\(\2\)[^}]*\}') + many_line(r'match [^{\n]*\{\s*Err\((\w+)\) => Err\([^}]*\}')
        + many_line(r'match [^{\n]*\{\s*Ok\((\w+)\) => \1,\s*Err\((\w+)\) => return Err[^}]*\}')),
    ('1 numbers of refusals and kinds by a table', lambda: grep(r'\w+::\w+(\(_\))? => \d+,')),
    ('2 functions of one name in several files', lambda: repeated((fn, name) for name, fn, _, _ in functions() if fn not in ('main', 'new', 'fmt', 'from', 'number', 'before', 'rank', 'judge', 'allowance'))
        + [f'twice: {k}' for k, v in collections.Counter(fn for name, fn, _, _ in functions()).items() if v == 2 and k not in ('main', 'load', 'save')]),
    ('3 loops that count', lambda: grep(r'\bfor \w+ in [^{]*\.\.') + grep(r'\bwhile\b')),
    ('3 cursors moved by hand', lambda: grep(r'^\s*(at|number|position|count|i|end|\w+\.at|self\.at|self\.len|line\.start) [+-]= ')),
    ('4 equality, conversion and printing by hand', lambda: grep(r'fn (is_tail|is_head|is_whole|part_of|kind_text|same|equal|ticks_of|due|read_digit|digit|value_of|number)\(') + many_line(r'match [^{\n]*\{\s*Some\((\w+)\) => Ok\(\1\),\s*None => Err[^}]*\}')
        + many_line(r'match \w+ \{\s*Kind::\w+(\(_\))? => true,\s*_ => false,\s*\}')),
    ('5 facts in three contracts or more', lambda: repeated(clause_facts())),
    ('5 parameters that travel together in three functions or more', lambda: repeated(together())),
    ('6 buffers with a length beside, parallel arrays', lambda: grep(r'\[[\w:]+; *[\w]+\]', skip=r'^\s*(ghost|const|static|pub const)')),
    ('7 switches on a step, tables of functions', lambda: grep(r'\bdyn\b|fn\(') + grep(r'match step')),
]

for title, find in POINTS:
    found = sorted(set(find()))
    print(f'{len(found):4}  {title}')
    if listed:
        for f in found:
            print('        ' + f)
