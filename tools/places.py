#!/usr/bin/env python3
"""Counts the places that docs/DESIGN-PASS.md speaks of: places.py [--list] [POINT..], at the top of a checkout.

A place is a line of src/ without its comment, but for point 1's enums and point 5's facts, which are counted once each."""
import collections
import glob
import re
import sys


def lines():
    for path in sorted(glob.glob('crates/*/src/**/*.rt', recursive=True)):
        for number, line in enumerate(open(path, encoding='utf-8'), 1):
            yield path, number, line.split('//')[0].rstrip()


def matching(pattern, clauses=False):
    seen = re.compile(pattern)
    for path, number, code in lines():
        clause = re.match(r'\s*(requires|ensures|ghost)\b', code) is not None
        if clause == clauses and seen.search(code):
            yield f'{path}:{number}: {code.strip()}'


def enums():
    """Enums with a case for nothing or for a refusal."""
    for path in sorted(glob.glob('crates/*/src/**/*.rt', recursive=True)):
        text = re.sub(r'//[^\n]*', '', open(path, encoding='utf-8').read())
        for found in re.finditer(r'enum (\w+) \{([^}]*)\}', text):
            if re.search(r'\b(Nothing|Fine),|\bNoOffer,|Refused\(|Blocked\(|Free,\s+War', found.group(2)):
                yield f'{path}: {found.group(1)}'


def facts():
    """Facts that stand in a requires of three or more functions, each with how often."""
    count = collections.Counter()
    for _, _, code in lines():
        found = re.match(r'\s*requires [a-z_0-9]* ?\{ (.*) \}', code)
        if found:
            count[re.sub(r'\b(old|now)\b', 'now', found.group(1))] += 1
    return [f'{n} times: {fact}' for fact, n in count.most_common() if n >= 3]


def refusals():
    """Fields, parameters and results that are the number of a refusal, and such numbers as they are given out."""
    yield from matching(r'\bno: u8\b|\bstands: u8\b|Refused\(u8\)|Refused\(\d+\)|done_or\(\d')
    for path, number, code in lines():
        if path.startswith('crates/checks/') and re.search(r'\) -> u8$', code):
            yield f'{path}:{number}: {code.strip()}'
        if path.startswith('crates/driving/') and re.search(r'\bnumber: u8\b', code):
            yield f'{path}:{number}: {code.strip()}'


POINTS = {
    '1 own enums': enums,
    '1 flags beside a value': lambda: matching(r'^\s+(pub )?(some|found|full|fits|all|formed|form): bool,'),
    '1 refusals as numbers': refusals,
    '1 numbers for none': lambda: matching(r'\b64 <= |[^\w.]\w+ < 64\b|: 80,|: 64,|= 64;|\bNOBODY\b|^\s+64$|^\s+80$'),
    '1 numbers for kinds': lambda: matching(r'fn (number|as_usize)\(self\)|^\s+\d+ => (Maybe\w+::)?(Some\()?(Phase|Pipeline\w+)::\w+\)?,$'),
    '3 loops that count an index': lambda: matching(r'^\s*(while|loop)\b'),
    '4 equality by hand': lambda: matching(r'fn same\w*\(|\.number\(\) == '),
    '4 default by hand': lambda: matching(r'pub fn default\(\)'),
    '4 conversion by hand': lambda: matching(r'fn (class_of|role_of|number_of|phase_of|hazard_of|class_at|role_at|state_of|label_of)\('),
    '4 arithmetic of the library by hand': lambda: matching(r'fn (least|larger|at_least_one|one_less|one_more|count_of|capped|saturating_add|instances_of|copy_into|fill|put_zeros)\('),
    '4 a bool by if': lambda: matching(r'\{ true \} else|else \{ false \}|^\s+(true|false)$'),
    '5 facts in three or more requires': facts,
    '5 parameters that travel together': lambda: matching(r'\bus: &|\bts: &|\bbs: &|\brows: usize,'),
    '6 a length beside an array': lambda: matching(r'^\s+(pub )?\w*len: (u8|usize),'),
    '6 parallel arrays': lambda: matching(r'let mut (us|ss|ts|fs|bs|ls|hs) ='),
    '6 an array and its count as parameters': lambda: matching(r'\w+: \[\w+; \d+\], \w+: (u8|usize)'),
    '7 a switch on which step to run': lambda: matching(r'\b(starts|halts|faults): bool'),
}


def main():
    shown = '--list' in sys.argv
    wanted = [a for a in sys.argv[1:] if not a.startswith('--')]
    for name, places in POINTS.items():
        if wanted and name[0] not in wanted:
            continue
        found = list(places())
        print(f'{len(found):5} {name}')
        if shown:
            print(''.join(f'      {place}\n' for place in found), end='')


main()
