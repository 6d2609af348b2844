#!/usr/bin/env python3
"""Functions whose bodies are the same up to the names and numbers in them.

    python3 tools/twins.py [LEAST]

Prints each group of two or more functions of crates/*/src whose bodies have the same tokens once names and numbers are
replaced, in order of first use, and that have at least LEAST tokens (30). The last line counts groups and functions."""
import glob
import re
import sys

least = int(sys.argv[1]) if len(sys.argv) > 1 else 30
TOKEN = re.compile(r'[A-Za-z_][A-Za-z_0-9]*|b?"[^"]*"|b?\'[^\']+\'|\d\w*|::|->|=>|==|!=|<=|>=|&&|\|\||[-+*/%]=|\.\.|\S')
KEPT = {'let', 'mut', 'if', 'else', 'while', 'for', 'in', 'loop', 'return', 'match', 'as', 'true', 'false', 'Ok', 'Err', 'Some', 'None', 'self', 'break'}


def functions(path):
    text = re.sub(r'//[^\n]*', '', open(path).read())
    for m in re.finditer(r'\bfn ([A-Za-z_0-9]+)', text):
        i, depth = m.end(), 0
        # the body is the block behind the signature and the clauses
        while i < len(text):
            c = text[i]
            if c == ';' and depth == 0:
                break
            if c in '([':
                depth += 1
            elif c in ')]':
                depth -= 1
            elif c == '{' and depth == 0:
                j, d = i, 0
                while j < len(text):
                    if text[j] == '{':
                        d += 1
                    elif text[j] == '}':
                        d -= 1
                        if d == 0:
                            break
                    j += 1
                before = text[m.end():i].rstrip()
                if re.search(r'\b(requires|ensures|ghost)( [a-z_0-9]+)?$', before):
                    i = j
                else:
                    yield m.group(1), text[i:j + 1]
                    break
            i += 1


def skeleton(body):
    names, out = {}, []
    for t in TOKEN.findall(body):
        if t in KEPT or not re.match(r'[A-Za-z_0-9]|b?["\']', t):
            out.append(t)
        else:
            out.append('#%d' % names.setdefault(t, len(names)))
    return out


groups = {}
for path in sorted(glob.glob('crates/*/src/**/*.rt', recursive=True)):
    for name, body in functions(path):
        s = skeleton(body)
        if len(s) >= least:
            groups.setdefault(' '.join(s), []).append('%s %s' % (path, name))
twins = [g for g in groups.values() if len(g) > 1]
for g in twins:
    print('\n'.join(g) + '\n')
print('%d groups, %d functions' % (len(twins), sum(map(len, twins))))
