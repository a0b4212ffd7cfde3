#!/usr/bin/env python3
"""Counts, in crates/*/src, the places that today's forms of the language may replace. docs/DESIGN-PASS.md says what became of them.

    python3 tools/places.py           the counts, a line for each point
    python3 tools/places.py --list    and each place, as file:line: text
"""
import collections
import glob
import os
import re
import sys

ROOT = os.path.join(os.path.dirname(os.path.abspath(__file__)), '..')

LINES = [
    ('1 an absence or a refusal handed on by hand', r'^\s*let (Some|Ok)\(.*\) = .* else \{$'),
    ('1 own enums', r'^\s*(pub )?enum '),
    ('1 numbers for kinds and refusals', r'\bkind: u(8|64)|code: u8|(Refused|No)\(u64\)|^pub const (SAID|GO_ON|EMPTY_NAME|BROKEN_NAMES)\b|reason: u64'),
    ('1 numbers for nothing', r'^\s*pub fn \w+\(\) -> u8'),
    ('3 loops over a range, or while', r'^\s*(for \w+ in .*\.\.|while |loop )'),
    ('3 loops over items', r'^\s*for (?!.*\.\.).* in '),
    ('4 derives', r'#\[derive'),
    ('4 derives of more than Clone, Copy or Drop', r'#\[derive\((?!Clone, Copy\)\]|Drop\)\])'),
    ('4 conversions and printing by an impl', r'^\s*impl.*\b(From|TryFrom|Display|Error)\b.* for '),
    ('6 words with a count or a length beside', r'^\s*(pub )?(len|words|count|frames|uses|filled): (usize|u64),'),
    ('6 functions that are lent words', r'\w+: &(mut )?\[u64\]'),
    ('7 switches on a kind', r'\bmatch (kind|code|request|told|src\.at)'),
]


def sources():
    for path in sorted(glob.glob(os.path.join(ROOT, 'crates/*/src/*.rt'))):
        with open(path, encoding='utf-8') as file:
            yield os.path.relpath(path, ROOT), file.read().split('\n')


def clauses():
    """Each fact of a clause, with the functions in whose contracts it stands."""
    where = collections.defaultdict(set)
    for path, lines in sources():
        function = None
        for line in lines:
            named = re.match(r'\s*(?:pub(?:\(crate\))? )?fn (\w+)', line)
            if named:
                function = path.split('/')[1] + '::' + named.group(1)
            clause = re.match(r'\s*(requires|ensures)\s*\w*\s*\{ (.*) \}\s*$', line)
            if clause and function:
                for fact in re.split(r' × ', clause.group(2)):
                    where[clause.group(1), fact.strip(' ()')].add(function)
    return {key: functions for key, functions in where.items() if len(functions) >= 3}


def main():
    listed = '--list' in sys.argv[1:]
    for name, pattern in LINES:
        found = [(path, number, line.strip()) for path, lines in sources() for number, line in enumerate(lines, 1) if re.search(pattern, line)]
        print(f'{len(found):4} {name}')
        if listed:
            for path, number, line in found:
                print(f'       {path}:{number}: {line}')
    repeated = clauses()
    print(f'{len(repeated):4} 5 facts that stand in the contracts of three functions or more')
    for (kind, fact), functions in sorted(repeated.items(), key=lambda item: -len(item[1])):
        print(f'       in {len(functions)}: {kind} {fact}')
    taking = sum(1 for path, lines in sources() for line in lines if re.search(r'\bsrc: &\w', line))
    print(f'{taking:4} 5 functions that take a row of bytes beside where to look in it')


main()
