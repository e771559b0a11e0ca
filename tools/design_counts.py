#!/usr/bin/env python3
"""Counts the places of docs/DESIGN-PASS.md in src/: tools/design_counts.py [FOLDER] [--list], where FOLDER is a checkout (this one, if
none is named). With --list each place is printed."""

import glob
import os
import re
import sys

HERE = os.path.dirname(os.path.dirname(os.path.abspath(__file__)))
TOP = next((word for word in sys.argv[1:] if not word.startswith('--')), HERE)
LIST = '--list' in sys.argv

# Parameters that travel together.
GROUPS = {
    'the five slices of a unit': {'functions', 'items', 'arguments', 'blocks', 'predecessors'},
    'a buffer and a place in it': {'buf', 'at'},
    'a text and its names': {'text', 'names'},
    'the header table and how many rows it has': {'rows', 'n'},
    'rows of successors and their counts': {'succs', 'counts'},
    'labels and how many': {'labels', 'count'},
    'cells and a place in them': {'cells', 'used'},
}


def sources():
    for path in sorted(glob.glob(os.path.join(TOP, 'crates', '*', 'src', '*.rt'))):
        with open(path, encoding='utf-8') as file:
            yield os.path.relpath(path, TOP), file.read()


def lines_of(pattern):
    found = []
    for path, text in sources():
        for number, line in enumerate(text.split('\n'), 1):
            if re.search(pattern, line) and not line.lstrip().startswith('//'):
                found.append(f'{path}:{number}: {line.strip()}')
    return found


def shapes():
    """Enums that have a variant Refused beside others, and those of one value or none."""
    results, options = [], []
    for path, text in sources():
        for name, body in re.findall(r'^(?:pub |pub\(crate\) )?enum (\w+)[^{]*\{\n(.*?)^\}', text, re.M | re.S):
            variants = re.findall(r'^    (\w+)', body, re.M)
            if 'Refused' in variants:
                results.append(f'{path}: {name} {{ {", ".join(variants)} }}')
            elif len(variants) == 2 and len(re.findall(r'^    \w+[({]', body, re.M)) == 1:
                options.append(f'{path}: {name} {{ {", ".join(variants)} }}')
    return results, options


def functions():
    for path, text in sources():
        for name, parameters in re.findall(r'\bfn (\w+)(?:<[^>]*>)?\(([^)]*)\)', text):
            names = [p.split(':')[0].strip().removeprefix('mut ') for p in parameters.split(',') if ':' in p]
            yield f'{path}: {name}', names


def show(title, places):
    print(f'{len(places):5}  {title}')
    if LIST:
        for place in places:
            print('         ' + place)


results, options = shapes()
show('1  enums of the shape of Result', results)
show('1  enums of the shape of Option', options)
show('1  numbers for kinds, refusals, parts and types: fields and parameters',
     lines_of(r'\b(kind|number|part|before|wanted|found|ty|dty|lty|ret|dead): u(8|32)\b'))
show('1  constants that are codes', lines_of(r'^(pub |pub\(crate\) )?const [A-Z_0-9]+: u(8|32) = [0-9]+;'))
show('1  arms of a match on a refusal', lines_of(r'(Refused|Err)\((e|refusal)\) =>'))
show('3  while and loop', lines_of(r'^\s*(while|loop)\b'))
show('3  for', lines_of(r'^\s*for\b'))
show('4  tests by hand: `if ..` that returns true or false', lines_of(r'return (true|false);'))
everything = list(functions())
show('5  functions', [name for name, _ in everything])
show('5  functions of six parameters and more', [name for name, names in everything if len(names) >= 6])
for title, group in GROUPS.items():
    show(f'5  functions that take {title}', [name for name, names in everything if group <= set(names)])
show('7  flags that choose a step: bool parameters', lines_of(r'^\s*(?:.*\bfn .*)?\b(quoted|again|full|lacks|is|void|unit): bool\b'))
