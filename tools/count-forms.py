#!/usr/bin/env python3
"""Counts in crates/*/src and crates/*/proofs the places of docs/DESIGN-PASS.md, a line for each point and kind; with --list their places too.

usage: tools/count-forms.py [--list] [FOLDER]    FOLDER is a checkout, this one where none is given
"""
import glob
import os
import re
import sys

listed = '--list' in sys.argv
names = [a for a in sys.argv[1:] if not a.startswith('--')]
top = names[0] if names else os.path.join(os.path.dirname(os.path.abspath(__file__)), '..')
os.chdir(top)

sources = {f: open(f, encoding='utf-8').read() for f in sorted(glob.glob('crates/*/src/*.rt'))}
bare = {f: '\n'.join('' if re.match(r'\s*(//|ghost use)', l) else l for l in s.split('\n')) for f, s in sources.items()}


def show(point, kind, places):
    print(f'{point}  {len(places):4}  {kind}')
    if listed:
        for place in places:
            print(f'          {place}')


def lines(pattern):
    return [f'{f}:{i + 1}: {l.strip()}' for f, s in bare.items() for i, l in enumerate(s.split('\n')) if re.search(pattern, l)]


def functions():
    """Every function: its file, its name, its parameters and what it answers."""
    for f, s in bare.items():
        for m in re.finditer(r'\bfn (\w+)(?:<[^(]*?>)?\(((?:[^()]|\([^()]*\))*)\)\s*(?:->\s*([^\n{]+?))?\s*(?:\n|\{)', s):
            yield f, m.group(1), [p for p in re.split(r',(?![^\[(<]*[\])>])', m.group(2)) if p.strip()], (m.group(3) or '').strip()


cause = re.compile(r'cause|^frame$|^or_else$|^put_|_sheet$|^figures$|^(write_)?number_of$|^write_number$|^empty_sheet$|^step$|^refused$|^scheme_cause$')
show(1, 'types with a number or a flag beside a value, and enums of the shape of Option or Result',
     lines(r'^    pub (number: u8|failed: bool),|^    (Refused|Declined)\(u8\),|^    NoMore,'))
show(1, 'functions that answer the number of a cause, those for C apart',
     [f'{f}: {n}' for f, n, _, r in functions() if r == 'u8' and cause.search(n) and not n.startswith('joguyvi_')])
show(1, 'constants that are the number of a cause', lines(r'const \w+(_OUT|NOT_\w+|NO_CHAMBER|BASE_ABOVE): u8|const (NOT_\w+|NO_CHAMBER): u8'))
show(1, 'tests whether a number tells a cause', lines(r'\b(number|cause|frame|form|head|shape|own|refused|rule_row_cause\(.*\)|cause\(.*\)) (!=|==) 0'))
twins = r'fn (smaller|larger|shorter|less|wide|copy_ends|copy_counts|number_at|payoff_of|counts_of|checksum_of|checksum_of_counts|chosen_of|low_of|high_of|number_of|write_number|written_length)\b'
show(2, 'functions that differ from another, or from one of the library, only in a type, a size or a constant',
     [p for p in lines(twins) if 'big_endian' not in p and 'order' not in p])
show(3, 'loops by while or loop', lines(r'^\s*(while|loop)\b'))
show(4, 'conversions by as', lines(r'\bas (u8|u16|u32|u64|usize)\b'))
show(5, 'functions with six parameters or more, those for C apart',
     [f'{f}: {n}' for f, n, ps, _ in functions() if len(ps) >= 6 and not n.startswith('joguyvi_')])
show(5, 'functions that take a slice and a place in it, and answer the next place',
     [f'{f}: {n}' for f, n, ps, r in functions() if r == 'usize' and any('out: &mut [u8]' in p for p in ps) and any(re.match(r'\s*at: usize', p) for p in ps)])
show(5, 'functions that take the entries beside the slack', [f'{f}: {n}' for f, n, ps, _ in functions() if any('entries:' in p for p in ps) and any('slack:' in p for p in ps)])
show(6, 'functions that take a length beside a slice or an array',
     [f'{f}: {n}' for f, n, ps, _ in functions() if any(re.match(r'\s*(n|s|m|size): usize', p) for p in ps) and any('[' in p for p in ps)])
show(6, 'arrays in which several tables stand one behind the other', lines(r'^pub const (LOWER_ENDS|CAPACITIES|COUNTS): usize'))
show(7, 'switches on a kind or a number', lines(r'if (kind|number|version) == \d'))
answers = glob.glob('crates/*/proofs/**/Answers.antt', recursive=True)
show(8, 'files of answers', answers)
print(f"8  {sum(len(re.findall(r'^pub [^:]+ : goal', open(f, encoding='utf-8').read(), re.M)) for f in answers):4}  answers")
print(f"8  {sum(len(open(f, encoding='utf-8').read().splitlines()) for f in answers):4}  lines of answers")
print(f"8  {sum(len(re.findall(r'^abbrev pub (?:invariant|decreases)', open(f, encoding='utf-8').read(), re.M)) for f in glob.glob('crates/*/proofs/**/Invariants.antt', recursive=True)):4}  invariants and measures")
