#!/usr/bin/env python3
"""Counts the places of each point of docs/DESIGN-PASS.md in crates/*/src, as that page says.

    tools/count_forms.py [FOLDER] [--list]

FOLDER is a checkout (this one, where none is given). With --list each place is printed as well."""
import collections
import glob
import re
import sys

folder = next((a for a in sys.argv[1:] if not a.startswith('-')), '.')
listed = '--list' in sys.argv

files = {p: open(p, encoding='utf-8').read() for p in sorted(glob.glob(folder + '/crates/*/src/**/*.rt', recursive=True))}


def count(point, what, pattern, unless=None):
    """The lines of code that match, comments left out."""
    found = []
    for path, text in files.items():
        for i, line in enumerate(text.split('\n'), 1):
            code = line.split('//')[0]
            if re.search(pattern, code) and not (unless and re.search(unless, code)):
                found.append(f'{path[len(folder) + 1:]}:{i}: {line.strip()}')
    print(f'{point}  {what}: {len(found)}')
    if listed:
        print(*('      ' + f for f in found), sep='\n')


def several(point, what, facts, least=3):
    """What stands in so many signatures or contracts at least."""
    many = sorted(((n, f) for f, n in collections.Counter(facts).items() if n >= least), reverse=True)
    print(f'{point}  {what}: {len(many)}')
    if listed:
        print(*(f'      {n} {f}' for n, f in many), sep='\n')


count(1, 'enums', r'^\s*(pub )?enum ')
count(1, 'a result with values beside it', r'^\s*pub (outcome|advance|found):')
count(1, 'a number or a bool for a kind', r'part: usize|minus: bool|more: bool|count: usize, term|Refusal::\w+ => \d')
count(3, 'while and loop', r'^\s*(while|loop)\b')
count(3, 'for over 0..n', r'^\s*for \w+ in 0\.\.')
count(4, 'equality, order, conversion by hand', r'fn (magnitude|negated|larger|same|like|is_digit|digit|number|minus_number|print_signed|no_head|no_term|no_quantity)\b')
count(4, 'casts by `as`', r' as (u64|i64|usize|u32|u8)\b')
several(5, 'facts in three contracts or more', (re.sub(r'^requires( \w+)? ', '', m) for text in files.values() for m in re.findall(r'requires(?: \w+)? \{ .* \}', text)))

pairs = []
for text in files.values():
    for name, parameters in re.findall(r'fn (\w+)(?:<[^>]*>)?\(([^)]*)\)', text):
        names = sorted({p.split(':')[0].replace('mut ', '').strip() for p in parameters.split(',') if ':' in p})
        pairs += [f'{a}, {b}' for i, a in enumerate(names) for b in names[i + 1:]]
several(5, 'pairs of parameters in four signatures or more', pairs, 4)
count(6, 'arrays of single numbers', r'\[(i64|u64|u8)\b[^\]]*; \w+\]', r'\bstruct\b')
count(6, 'a text or rows with a place beside', r'text: &mut \[u8\], at: usize|text: &mut \[u8\],$|at: usize, n: usize|rows: &(mut )?\[i64\], n: usize')
count(7, 'a switch on which step to run', r'minus: bool')

answers = glob.glob(folder + '/crates/*/proofs/**/Answers.antt', recursive=True)
invariants = glob.glob(folder + '/crates/*/proofs/**/Invariants.antt', recursive=True)
lines = sum(len(open(p, encoding='utf-8').read().splitlines()) for p in answers + invariants)
print(f'8  Answers.antt: {len(answers)}, Invariants.antt: {len(invariants)}, lines in both: {lines}')
