#!/usr/bin/env python3
"""Turns this repository's own names to today's spelling: words in snake case, types in camel case.

Run once at the top of a checkout, behind port.py. It renames what the files of specs/ and proofs/ define, wherever it is
cited: there, in contracts, in must-fail edits, and between backquotes in README and docs/. Names of the library and names
that the check makes for a function's goals stay as they are.
"""
import glob
import re
import sys

WORD = r"[A-Za-z][A-Za-z0-9_']*(?:-[A-Za-z0-9_'≤≡]+)+"
GENERATED = ('Answers.antt', 'Invariants.antt', 'Choices.antt', 'Proof.antt')


def respelled(word):
    if word[0].isupper():
        return ''.join(part[0].upper() + part[1:] for part in word.split('-'))
    return word.replace('-', '_')


def code_of(line, mark):
    """The line's code, and its comment."""
    found = re.search(r'(^|\s)' + re.escape(mark), line)
    return (line[: found.start()], line[found.start():]) if found else (line, '')


def defined():
    """The names that this repository defines, and each name's place."""
    names = {}
    for file in sorted(glob.glob('crates/*/specs/*.antt') + glob.glob('crates/*/proofs/**/*.antt', recursive=True)):
        made = file.endswith(GENERATED)
        for line in open(file, encoding='utf-8'):
            code = code_of(line, '--')[0]
            for match in re.finditer(r"^\s*(?:(?:abbrev|unfoldable|pub)\s+)*((?:[A-Za-z][\w'-]*\s+)+):\s", code):
                if made and (code.startswith('pub') or re.search(r':\s+goal\.', code) or code.startswith('abbrev pub')):
                    continue
                for word in match.group(1).split():
                    names.setdefault(word, file)
            match = re.match(r"^\s*(?:pub\s+)?(?:record|data|ruleset)\s+([A-Za-z][\w'-]*)", code)
            if match:
                names.setdefault(match.group(1), file)
    return names


def imported(text):
    """The names that a file takes from the library."""
    words = set()
    for match in re.finditer(r'use (Rattle\.std|Rattle\.core|borrow|native|mathlib|lib)\.[^{;\n]*\{([^}]*)\}', text):
        words |= set(re.findall(r"[^\s,]+", match.group(2)))
    return words


def respell(text, mark, choose):
    lines = []
    for line in text.split('\n'):
        code, rest = code_of(line, mark)
        lines.append(re.sub(WORD, lambda m: respelled(m.group(0)) if choose(m.group(0)) else m.group(0), code) + rest)
    return '\n'.join(lines)


def rewrite(file, change):
    old = open(file, encoding='utf-8').read()
    new = change(old)
    if new != old:
        open(file, 'w', encoding='utf-8').write(new)


def main():
    names = defined()
    own = {word for word in names if '-' in word}
    taken = {}
    for word in names:
        taken.setdefault(respelled(word), set()).add(word)
    for word, old in sorted(taken.items()):
        if len(old) > 1:
            print(f'falls together as {word}: {" ".join(sorted(old))}', file=sys.stderr)
    for file in glob.glob('crates/*/specs/*.antt') + glob.glob('crates/*/proofs/**/*.antt', recursive=True):
        text = open(file, encoding='utf-8').read()
        library = imported(text)
        if file.endswith(GENERATED):
            rewrite(file, lambda t: respell(t, '--', lambda w: w in own))
        else:
            rewrite(file, lambda t: respell(t, '--', lambda w: w not in library))
    for file in glob.glob('crates/*/src/**/*.rt', recursive=True):
        rewrite(file, lambda t: respell(t, '//', lambda w: w in own))
    for file in glob.glob('crates/*/must-fail/*.edit'):
        rewrite(file, lambda t: respell(t, '//', lambda w: w in own))
    for file in glob.glob('docs/*.md') + ['README.md']:
        rewrite(file, lambda t: re.sub(r'`(' + WORD + r')`', lambda m: '`' + (respelled(m.group(1)) if m.group(1) in own else m.group(1)) + '`', t))


main()
