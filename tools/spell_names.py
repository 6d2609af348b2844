#!/usr/bin/env python3
"""spell_names.py: bring the definitions and lemmas of crates/*/specs and crates/*/proofs to the spelling of today's library.

Types and modules stay in camel case, the names of lopcodes.h (OP_ADD, GETARG_A) get their underscores back, and everything else
is in snake case. Functions of src/, exported names and strings are not touched. Run once, anywhere in the repository, after port.py;
it renames what the files of specs/ and proofs/ declare, wherever that is cited: in .antt files, and in the clauses of .rt files.
A second run changes nothing.
"""
import os
import re
import subprocess

TOP = subprocess.run(['git', 'rev-parse', '--show-toplevel'], capture_output=True, text=True).stdout.strip()
CRATES = os.path.join(TOP, 'crates')
# a lemma that would get the name of a definition says that it is its law
LAWS = ['to-functions', 'source-part', 'constant-words', 'constant-from', 'tree-of', 'root-source', 'undump-refused', 'undumped-by',
        'no-debug', 'refused-by', 'measured-by', 'as-measured', 'dumped-source', 'name-refused', 'row_step']
# names that come from the library
KEPT = ['take-suc', 'length-append', 'le-leb']
# variables, and names given in an import
OTHERS = ['needWords', 'needText', 'needRead', 'sameBytes', 'listPiece', 'okL']
# the walks that a tool wrote are not named by hand
WRITTEN = re.compile(r'(Kinds|Reads)\.antt$')
DECLARED = re.compile(r"\s*(?:(?:abbrev|unfoldable|opaque|record|data|abstract)\s+)?(?:pub\s+)?(?:(?:record|data|type)\s+)?([^\s:(){}.,;λ]+)\s*(?::|\(|\{|where)")
OTHER = re.compile(r'\s*(use|pub use|ghost|module|mod|pub mod|let|in|open|where|private)\b')
TOKEN = re.compile(r"[^\s()\[\]{}.,;λ:`]+")


def snake(name):
    name = name.replace('-', '_')
    if re.match('[A-Z]', name):
        return name
    name = re.sub('([a-z0-9])([A-Z])', r'\1_\2', name)
    return re.sub('([A-Z])([A-Z][a-z])', r'\1_\2', name).lower()


def declared():
    found = {}
    for crate in sorted(os.listdir(CRATES)):
        for folder in ('specs', 'proofs'):
            path = os.path.join(CRATES, crate, folder)
            for file in sorted(os.listdir(path)) if os.path.isdir(path) else []:
                if not file.endswith('.antt') or WRITTEN.search(file):
                    continue
                for line in open(os.path.join(path, file), encoding='utf-8'):
                    m = DECLARED.match(line)
                    if m and not line.lstrip().startswith('--') and not OTHER.match(line):
                        found[m.group(1)] = True
    return found


def names():
    new = {}
    found = declared() | {name: True for name in OTHERS}
    for name in found:
        if name in KEPT or name == 'row_step' and 'rowStep' not in found or not re.fullmatch(r"[A-Za-z0-9_'?-]+", name):
            continue
        to = snake(name) + ('_law' if name in LAWS else '')
        if to != name:
            new[name] = to
    return new


def spell(text, new, camel_only=False):
    def one(m):
        t = m.group(0)
        return t if camel_only and '-' in t else new.get(t, t)
    return TOKEN.sub(one, text)


def antt(text, new):
    lines = []
    for line in text.split('\n'):
        code, mark, comment = line, '', ''
        m = re.search(r'(^|\s)--\s', line)
        if m:
            code, comment = line[:m.start()], line[m.start():]
        lines.append(spell(code, new) + spell(comment, new, True))
    return '\n'.join(lines)


def rt(text, new):
    """The ghost use lines and the clauses."""
    lines = []
    for line in text.split('\n'):
        if re.match(r'\s*(ghost use|requires|ensures|ghost)\b', line):
            line = spell(line, new)
        lines.append(line)
    return '\n'.join(lines)


def main():
    new = names()
    for folder, dirs, files in os.walk(CRATES):
        dirs[:] = [d for d in dirs if d not in ('out', 'must-fail')]
        for file in files:
            path = os.path.join(folder, file)
            if not file.endswith(('.antt', '.rt')):
                continue
            old = open(path, encoding='utf-8').read()
            text = antt(old, new) if file.endswith('.antt') else rt(old, new)
            if text != old:
                open(path, 'w', encoding='utf-8').write(text)
    print(len(new), 'names')


main()
