#!/usr/bin/env python3
"""Counts the older forms of code in crates/*/src that docs/DESIGN-PASS.md speaks of.

    python3 tools/forms.py [-v]

A row for each kind of place, with how many there are; -v prints the places too. tools/twins.py counts the twins."""
import glob
import re
import sys

verbose = '-v' in sys.argv
FILES = {p: re.sub(r'//[^\n]*', '', open(p).read()) for p in sorted(glob.glob('crates/*/src/**/*.rt', recursive=True))}


def places(pattern, flags=re.M):
    return ['%s:%d: %s' % (p, t[:m.start()].count('\n') + 1 + len(re.match(r'\s*', m.group(0)).group(0).split('\n')) - 1, ' '.join(m.group(0).split())[:100])
            for p, t in FILES.items() for m in re.finditer(pattern, t, flags)]


def signatures():
    for p, t in FILES.items():
        for m in re.finditer(r'\bfn ([A-Za-z_0-9]+)(<[^(]*>)?\(([^)]*)\)([^{;]*)', t):
            yield p, t[:m.start()].count('\n') + 1, m.group(1), ' '.join(m.group(3).split()), ' '.join(m.group(4).split())


def with_params(*parts, result=''):
    return ['%s:%d: %s' % (p, n, f) for p, n, f, a, r in signatures() if all(re.search(x, a) for x in parts) and re.search(result, r)]


def row(point, what, found):
    print('%-2s %4d  %s' % (point, len(found), what))
    if verbose:
        for f in found:
            print('          ' + f)


row('1', 'fields: a flag beside the values that it speaks of', places(r'^\s*(pub )?(ok|own|known|found|well_formed|in_text): (bool|u32),'))
row('1', 'fields: a refusal or a kind by its number', places(r'^\s*(pub )?(refusal|kind): u32,'))
row('1', 'refusals tested or passed on by number', places(r'0 < [a-z_.]*refusal|refusal == 0'))
row('1', 'refusals made of a number in the code', places(r'(refused|no_source|no_locals)\((\d+|n)\)|refusal: [1-9]\d*,|return 1[0-5];'))
row('1', 'parameters: an opcode or a kind by its number', ['%s:%d: %s' % (p, n, f) for p, n, f, a, r in signatures() if re.search(r'\b(op|kind|tag): (u8|u32)', a)])
row('1', 'answers: a number, where 0 stands for none', [x for x in with_params('', result=r'-> (u8|u32|usize)') if re.search(r': (place_refusal|register_refusal|kept_lines|letter|row_len)$', x)])
row('3', 'loops: while and loop', places(r'^\s*(while|loop)\b[^\n]*'))
counted = []
for p, t in FILES.items():
    for m in re.finditer(r'^(\s*)while ([^\n]*) \{\n(.*?)\n\1\}', t, re.M | re.S):
        names = set(re.findall(r'\b[a-z_]+\b', m.group(2)))
        step = re.search(r'^\s*([a-z_]+) [+-]= 1;', m.group(3), re.M)
        if step and step.group(1) in names:
            counted.append('%s:%d: while %s' % (p, t[:m.start(2)].count('\n') + 1, m.group(2)))
row('3', 'of these, with an index that is counted by one', counted)
row('4', 'matches whose arms are true and false', places(r'=> (true|false),'))
row('4', 'ifs whose one branch is true or false', places(r'return (true|false);|\{ (true|false) \}|^\s*(true|false)\n'))
row('4', 'structs copied field by field', places(r'^\s*([a-z_]+): [a-z]+\.\1,'))
row('4', 'characters by their numbers', places(r'put_byte\([^)]*, \d+\)|store_byte\([^)]*, \d+\)|^\s*\d+ => \d+,'))
row('5', 'functions of words and text', with_params(r'words: &', r'text: &'))
row('5', 'functions of lent output and a place in it', with_params(r'out: &mut \[u8\]', r'\bat: usize'))
row('5', 'functions of a chunk, lent memory and a state', with_params(r'chunk: &', r'words: &mut', r'\bs: '))
row('5', 'functions told the width beside other state', with_params(r'size_4: bool', r'(\bs: |out: &mut|words: &)'))
clauses = {}
for p, t in FILES.items():
    for m in re.finditer(r'^\s*requires [^\n]*', t, re.M):
        clauses.setdefault(p.split('/')[1] + ' ' + m.group(0).strip(), []).append('%s:%d' % (p, t[:m.start()].count('\n') + 2))
row('5', 'requires that stand in three or more functions of a crate', sorted('%s (%d times)' % (c, len(x)) for c, x in clauses.items() if len(x) > 2))
row('6', 'functions of two parallel arrays', with_params(r'begins: &', r'lines: &'))
row('7', 'functions made and handed out', with_params('', result=r'-> (Box<dyn|fn\()'))
