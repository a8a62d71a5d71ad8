#!/usr/bin/env python3
"""What does each public function promise? Prints a row for each, from the code.

    bench/promises.py           every library, in the order of crates.txt, as Markdown
    bench/promises.py NAME ..   these crates, functions or types alone
    bench/promises.py --count   how many functions and clauses each library has

A row has the function, the first sentence of its comment, the names of its clauses, and its file. A
function is public if its library's lib.rt names it, or names its type or trait. "the clause" is
that of a contract with a single `ensures`, which has no name; `requires` names what the caller
owes. A function that implements a trait keeps the trait's clauses; it has a row if it has clauses
of its own. A law is a function that does nothing: its contract is a theorem. These clauses are what
docs/PROMISES.md says in words.
"""
import os
import re
import sys

TOP = os.path.dirname(os.path.dirname(os.path.abspath(__file__)))
CRATES = os.path.join(TOP, 'crates')

OWNER = re.compile(r'(?:pub )?(impl|trait)\b(?:<.*?>(?= ))? ?(?:.*? for )?(\w+)')
FUNCTION = re.compile(r'( *)(?:pub )?fn (\w+)')
CLAUSE = re.compile(r'\b(requires|ensures)\b\*? ?(\w+)? ?(?=\{)')


def read(path):
    with open(path, encoding='utf-8') as file:
        return file.read()


def libraries():
    """The names of the libraries, in the order of crates.txt."""
    for name in re.findall(r'(?m)^(\w+):', read(os.path.join(TOP, 'crates.txt'))):
        if os.path.exists(os.path.join(CRATES, name, 'src', 'lib.rt')):
            if not name.endswith('_tests'):
                yield name


def handed_out(crate):
    """The names that a library hands out in its lib.rt."""
    text = re.sub(r'//.*', '', read(os.path.join(CRATES, crate, 'src', 'lib.rt')))
    return set(re.findall(r'\w+', ' '.join(re.findall(r'pub use ([^;]*);', text))))


def first_sentence(comment):
    """The first sentence of a comment, without the targets of its links."""
    text = '\n'.join(line.strip() for line in comment).split('\n\n')[0].replace('\n', ' ')
    text = re.sub(r'(\[`[^`]*`\])\([^)]*\)', r'\1', text).replace('|', '\\|')
    end = re.search(r'(?<![. ])\.(?= [A-Z`\[]|$)|:(?= \*)', text)
    return text[:end.end()] if end else text


def head_of(lines, at):
    """The head of a function with its clauses, without its body."""
    taken = []
    for line in lines[at:]:
        if line.strip() == '{' or re.match(r' *\{\}?$', line):
            break
        taken.append(line)
        if line.rstrip().endswith(';') or (line.rstrip().endswith('{')
                                           and not CLAUSE.search('\n'.join(taken))):
            break
    return '\n'.join(taken)


def clauses_in(head):
    """The clauses of a head: those that are promised, and those that the caller owes."""
    promised, owed = [], []
    for kind, name in CLAUSE.findall(re.sub(r'//.*', '', head)):
        (promised if kind == 'ensures' else owed).append(f'`{name}`' if name else '')
    promised = [name or 'the clause' for name in promised]
    if owed:
        promised.append('requires ' + ', '.join(name or 'its condition' for name in owed))
    return promised


def functions_in(crate, public):
    """Each public function of a library: its name, sentence, clauses and file."""
    source = os.path.join(CRATES, crate, 'src')
    for place, _, files in sorted(os.walk(source)):
        for file in sorted(files):
            path = os.path.join(place, file)
            if file.endswith('.rt') and file != 'lib.rt':
                yield from functions_of(read(path).split('\n'), public,
                                        os.path.relpath(path, TOP))


def functions_of(lines, public, path):
    """The public functions of one file."""
    comment, owner, is_trait, of_trait = [], None, False, None
    for at, line in enumerate(lines):
        if line.strip().startswith('///'):
            comment.append(line.strip()[3:])
            continue
        if found := OWNER.match(line):
            owner, is_trait = found[2], found[1] == 'trait'
            of_trait = re.search(r'(\w+)(?:<[^ ]*>)? for ', line)
        elif line.startswith('}'):
            owner = None
        if (found := FUNCTION.match(line)) and ('pub fn' in line or (owner and (
                is_trait or of_trait))):
            inner = bool(found[1])
            head = head_of(lines, at)
            clauses = clauses_in(head)
            name = f'{owner}::{found[2]}' if inner and owner else found[2]
            sentence = first_sentence(comment)
            if of_trait and inner:
                sentence = sentence or f'As `{of_trait[1]}` says.'
            if name.split('::')[0] in public and (clauses or not of_trait):
                yield name, sentence, clauses, path
        if line.strip() and not line.strip().startswith(('#', '//')):
            comment = []


def main():
    wanted = [it for it in sys.argv[1:] if not it.startswith('--')]
    counts, functions, clauses = '--count' in sys.argv, 0, 0
    if counts:
        print('| Crate | Functions | Clauses |\n|---|---|---|')
    for crate in libraries():
        rows = [row for row in functions_in(crate, handed_out(crate))
                if not wanted or crate in wanted or {row[0], *row[0].split('::')} & set(wanted)]
        own = sum(sum(not it.startswith('requires') for it in row[2]) for row in rows)
        functions, clauses = functions + len(rows), clauses + own
        if counts:
            print(f'| {crate} | {len(rows)} | {own} |')
        elif rows:
            print(f'### {crate}\n\n| Function | What it does | Clauses | File |\n|---|---|---|---|')
            for name, sentence, names, path in rows:
                file = path.split('/src/')[1]
                print(f'| `{name}` | {sentence} | {", ".join(names)} | [`{file}`](../{path}) |')
            print()
    if counts:
        print(f'| all | {functions} | {clauses} |')


if __name__ == '__main__':
    main()
