#!/usr/bin/env python3
"""Which definitions does one have to believe? Follows the words from the public contracts, and
prints the counts and the list of docs/SPECIFICATION.md: its part from "How much that is" to "Laws".

    bench/specification.py              the counts, and what a verdict rests on, as Markdown
    bench/specification.py --all        besides the lines of each crate, and all other files
    bench/specification.py --way WORD   how WORD is reached, up to a contract

A *word* is a definition in `crates/*/specs/*.antt`. A contract (the clauses of a function, the
clauses and ghost members of a trait) cites words; a word's definition cites words; and where a
contract or a word speaks of a type of the code, so do its fields, or its model where it has one.
Whoever believes a contract has to read all words that are reached so. They are followed from

    records      `judge_records` and the trait `Tracker` (bgp_judge)
    a capture    `judge_capture` (bgp_tool) and the traits `Source` and `Sink` (mrt)
    a recording  `judge_recording` and `each_end_is_shown` (bgp_recording_tool)
    a check      `check_recording` and `no_configuration_has_a_run` (bgp_check_tool)
    the rest     every other function, type and trait that a library hands out in its lib.rt, and
                 what its types say where they implement traits

and a word counts where it is reached first. What is left, private contracts alone cite, or proofs.
A line is one that isn't blank, no comment and no import. The toolchain's words end a way. Names
are resolved by the imports of each file; a name that a definition binds itself is its own, and one
after a dot is a field's. So the lists are as good as this reading of the text.
"""
import os
import re
import sys
import textwrap

TOP = os.path.dirname(os.path.dirname(os.path.abspath(__file__)))
CRATES = os.path.join(TOP, 'crates')

ROOTS = [
    ('What a verdict on records rests on', [
        ('bgp_judge', 'judge_records'), ('bgp_judge', 'Tracker')]),
    ('What judging a capture adds', [
        ('bgp_tool', 'judge_capture'), ('mrt', 'Source'), ('mrt', 'Sink')]),
    ('What judging a recording adds', [
        ('bgp_recording_tool', 'judge_recording'), ('bgp_recording_tool', 'each_end_is_shown')]),
    ('What checking a recording adds', [
        ('bgp_check_tool', 'check_recording'), ('bgp_check_tool', 'no_configuration_has_a_run')]),
]
# How many of these parts the page lists.
LISTED = 3

# A name with what stands behind its dots, and not behind one itself.
NAME = re.compile(r"(?<![\w.'])([A-Za-z_][\w']*)((?:\.[A-Za-z_][\w']*)*)")
USE = re.compile(r'\s*(?:ghost )?use (Rattle\.[\w.]+?)(?:\.\{([^}]*)\})?(?: as (\w+))?;?\s*$')
# What a crate passes on of one below: a file of definitions, and items of the code.
PASSED = re.compile(r'(?m)^pub use (Rattle\.[\w.]+?)(?: as (\w+))?$')
HANDED = re.compile(r'pub use (\w+)::([^;]*);')


def read(path):
    with open(path, encoding='utf-8') as file:
        return file.read()


def without_comments(text, mark):
    """The text without comments that begin with this mark."""
    return re.sub(r'(?m)(^|(?<=\s))' + mark + r'(?![\w"-]).*', '', text)


def statements(text):
    """The lines of a text, an import that goes on being one."""
    held = ''
    for line in text.split('\n'):
        held = f'{held} {line.strip()}' if held else line
        if re.match(r'\s*(?:ghost )?use ', held) and held.count('{') > held.count('}'):
            continue
        yield held
        held = ''


def imports_of(text):
    """What each imported name stands for: a path and a name, or a path alone of a module."""
    scope = {}
    for line in statements(text):
        found = USE.match(line)
        if not found:
            continue
        path, names, alias = found.groups()
        for words in (name.split() for name in (names or '').split(',')):
            if words:
                scope[words[-1]] = (path, words[0])
        if names is None:
            scope[alias or path.split('.')[-1]] = (path, None)
    return scope


class Spec:
    """A file of definitions."""

    def __init__(self, path):
        text = read(path)
        self.scope = imports_of(text)
        about = re.match(r'(?:-- [^\s|+].*\n)*', text).group()
        about = ' '.join(about.replace('-- ', '').split())
        self.about = re.match(r'(?:.*?\.(?= [A-Z]|$)|.*)', about).group()
        self.words, self.word_of = {}, {}
        self.read(without_comments(text, '--'))

    def read(self, text):
        """The words with their lines. A constructor is its word's; the heads of a file's modules
        are one word, which all words of the file cite."""
        word, is_data, in_head = None, False, False
        # How far the open modules are in, and how far their contents.
        modules = []
        for line in statements(text):
            if not line.strip() or USE.match(line):
                continue
            indent = len(line) - len(line.lstrip())
            if in_head:
                self.words['module'].append(line)
                in_head = not line.rstrip().endswith('where')
                continue
            while modules and indent <= modules[-1][0]:
                modules.pop()
            if modules and modules[-1][1] is None:
                modules[-1][1] = indent
            inner = line[modules[-1][1]:] if modules else line
            if inner.startswith('module '):
                modules.append([indent, None])
                self.words.setdefault('module', []).append(line)
                in_head = not line.rstrip().endswith('where')
                continue
            if re.match(r'(?:unfoldable )?mutual\b', inner):
                modules.append([indent, None])
                continue
            if re.match(r'[A-Za-z_]', inner):
                kind, name = re.match(
                    r'(?:abbrev |unfoldable )?(?:pub )?(record |data )?([^\s(:{]+)', inner).groups()
                word = self.word_of.setdefault(name, name)
                is_data = kind == 'data '
                self.words.setdefault(word, [])
            elif is_data and re.match(r'  \w+ :', inner):
                self.word_of[inner.split()[0]] = word
            if word:
                self.words[word].append(line)


class Crate:
    """A library: its definitions, and the items of its code."""

    def __init__(self, name):
        folder = os.path.join(CRATES, name)
        self.name, self.specs, self.items, self.impls = name, {}, {}, []
        specs = os.path.join(folder, 'specs')
        for file in sorted(os.listdir(specs)) if os.path.isdir(specs) else []:
            if file != 'Lib.antt':
                self.specs[file[:-5]] = Spec(os.path.join(specs, file))
        for place, _, files in os.walk(os.path.join(folder, 'src')):
            for file in files:
                self.read(os.path.join(place, file))
        passed = os.path.join(specs, 'Lib.antt')
        self.passed = {alias or path.split('.')[-1]: path for path, alias in PASSED.findall(
            read(passed) if os.path.exists(passed) else '')}
        lib = os.path.join(folder, 'src', 'lib.rt')
        handed = HANDED.findall(read(lib) if os.path.exists(lib) else '')
        self.public = set(re.findall(r'\w+', ' '.join(names for _, names in handed)))
        self.handed = {name: home for home, names in handed for name in re.findall(r'\w+', names)}

    def read(self, path):
        """The functions, types and traits of a file, each with its contract, and its imports."""
        text = without_comments(read(path), '//')
        scope = imports_of(text)
        for line in re.findall(r'(?m)^use ([^;]*);', text):
            home = self.name if line.startswith('crate') else line.split(':')[0].strip()
            for name in re.findall(r'\b[A-Z]\w*', line):
                scope.setdefault(name, ('code', f'{home}.{name}'))
        lines = text.split('\n')
        for at, line in enumerate(lines):
            found = (re.match(r'( *)pub (fn) (\w+)', line)
                     or re.match(r'()(?:pub(?:\(crate\))? )?(struct|enum|trait|type) (\w+)', line))
            model = re.match(r'()impl.* Model for (\w+)', line)
            owner = re.match(r'impl.* for (\w+)', line) or re.match(r'impl(?:<.*>)? (\w+)', line)
            if owner:
                self.owner = owner.group(1)
            if found:
                indent, kind, name = found.groups()
                body = contract_at(lines, at) if kind == 'fn' else block_at(lines, at)
                if kind == 'fn' and indent:
                    name = f'{self.owner}::{name}'
                self.items.setdefault(name, {})[kind] = (body, scope)
            elif model:
                self.items.setdefault(model.group(2), {})['model'] = (block_at(lines, at), scope)
            elif owner and ' for ' in line:
                self.impls.append((self.owner, clauses_of(block_at(lines, at)), scope))


def contract_at(lines, at):
    """The head of a function with its clauses, without its body."""
    taken = []
    for line in lines[at:]:
        if line.strip() in ('{', '{}'):
            break
        taken.append(line)
        has_clause = any(re.match(r'\s*(requires|ensures)', it) for it in taken)
        if line.rstrip().endswith(';') or (line.rstrip().endswith('{') and not has_clause):
            break
    return '\n'.join(taken)


def block_at(lines, at):
    """An item up to the line that closes it."""
    taken = []
    for line in lines[at:]:
        taken.append(line)
        if line.startswith(('}', ')')) or (len(taken) == 1 and line.rstrip().endswith((';', '}'))):
            break
    return '\n'.join(taken)


def clauses_of(block):
    """The clauses and ghost members in an implementation of a trait, without its bodies."""
    lines = block.split('\n')
    heads = [contract_at(lines, at) for at, line in enumerate(lines)
             if re.match(r' +(pub )?fn ', line)]
    return '\n'.join(heads + re.findall(r'(?m)^    ghost (?!use)[^;]*;', block))


def names_in(text):
    """The names of a text that it doesn't bind itself, each with what stands behind its dots."""
    text = re.sub(r'"[^"]*"', '', text)
    text = re.sub(r"(?m)(^ +(?:pub )?|[{;] *)[\w']+ (=|:(?!:))", r'\1\2', text)
    bound = set(re.findall(r"\blet ([a-z_][\w']*)", text))
    groups = re.findall(r"\(([a-z_][\w' ]*?) ?:(?!:)", text) + re.findall(r'λ ([^.]*)\.', text)
    for group in groups:
        bound |= set(re.findall(r"[a-z_][\w']*", group))
    for line in text.split('\n'):
        equation = re.match(r"([\w']+) (.*?) =(?: |$)", line)
        if equation and ' : ' not in equation.group(2):
            bound |= set(re.findall(r"(?<![\w.])[a-z_][\w']*(?![\w'.])", equation.group(2)))
    for name, rest in NAME.findall(text):
        if name not in bound:
            yield name, rest


class Library:
    """All libraries, and what a name leads to."""

    def __init__(self):
        names = re.findall(r'(?m)^(\w+):', read(os.path.join(TOP, 'crates.txt')))
        self.outside = set()
        self.crates = {name: Crate(name) for name in names if not name.endswith('_tests')}

    def home_of(self, path):
        """The path of a file of definitions in the crate that has it, not in one that passes it on."""
        parts = path.split('.')
        crate = self.crates.get(parts[1])
        if crate and parts[2:3] == ['specs'] and len(parts) > 3 and parts[3] in crate.passed:
            return self.home_of('.'.join([crate.passed[parts[3]], *parts[4:]]))
        return path

    def node(self, path, name):
        """The node of an imported name: a word or an item of the code; none of the toolchain's."""
        parts = self.home_of(path).split('.')
        crate = self.crates.get(parts[1])
        if crate is None:
            if parts[3] != 'declared':
                self.outside.add((parts[1], parts[3]))
            return None
        if parts[3:4] == ['declared'] and len(parts) > 5:
            return ('item', crate.name, parts[5])
        if parts[3:4] == ['contracts']:
            return ('item', crate.name, parts[-1])
        spec = crate.specs.get(parts[3]) if len(parts) > 3 else None
        if spec and name in spec.word_of:
            return ('word', crate.name, parts[3], spec.word_of[name])
        return None

    def resolve(self, scope, crate, name, rest):
        """What a name in this scope leads to."""
        path, target = scope.get(name, (None, None))
        if path == 'code':
            home, item = target.split('.')
            while item not in getattr(self.crates.get(home), 'items', {item: None}):
                handed = self.crates[home].handed.get(item)
                if handed not in self.crates:
                    break
                home = handed
            return ('item', home, item) if item in getattr(
                self.crates.get(home), 'items', {}) else None
        if path is None:
            return ('item', crate.name, name) if name in crate.items else None
        if target is None:
            return self.node(path, rest[1:].split('.')[0] if rest else '')
        return self.node(path, target)

    def is_type(self, node):
        """Whether an item is a type or a trait."""
        return set(self.crates[node[1]].items.get(node[2], ())) - {'fn'} != set()

    def next_of(self, node):
        """The nodes that a node cites."""
        crate = self.crates[node[1]]
        if node[0] == 'word':
            spec = crate.specs[node[2]]
            if 'module' in spec.words and node[3] != 'module':
                yield ('word', node[1], node[2], 'module')
            for name, rest in names_in('\n'.join(spec.words[node[3]])):
                if name in spec.word_of:
                    yield ('word', node[1], node[2], spec.word_of[name])
                else:
                    yield self.resolve(spec.scope, Crate_without_items, name, rest)
            return
        parts = crate.items.get(node[2], {})
        if node[0] == 'impl':
            texts = [crate.impls[int(node[2])][1:]]
        elif 'model' in parts:
            texts = [parts['model']]
        else:
            texts = parts.values()
        for text, scope in texts:
            for name, rest in names_in(text):
                yield self.resolve(scope, crate, name, rest)


class Crate_without_items:
    """A file of definitions sees the code by its imports alone."""
    name, items = '', {}


class Part:
    """What is reached from some roots, and from none before: words, and types and traits."""

    def __init__(self, library, title, roots, seen):
        self.title, self.words, self.types = title, [], []
        library.outside = set()
        todo = [node for node in roots if node not in seen]
        seen.update((node, None) for node in todo)
        while todo:
            node = todo.pop(0)
            if node[0] == 'word':
                self.words.append(node)
            elif node[0] == 'item' and library.is_type(node):
                self.types.append(node)
            for after in library.next_of(node):
                if after and after not in seen:
                    seen[after] = node
                    todo.append(after)
        self.outside = library.outside


def files_of(library, words):
    """The files of these words, in the order of `crates.txt` and of a crate's names, each with the
    words in its own order."""
    files = {}
    for _, crate, module, word in words:
        files.setdefault((crate, module), set()).add(word)
    order = list(library.crates)
    for crate, module in sorted(files, key=lambda it: (order.index(it[0]), it[1])):
        spec = library.crates[crate].specs[module]
        named = [word for word in spec.words if word in files[crate, module]]
        yield crate, module, spec, named


def lines_of(library, words):
    """How many lines these words have."""
    return sum(len(library.crates[node[1]].specs[node[2]].words[node[3]]) for node in words)


def print_counts(library, parts):
    """What each part adds, and what it comes to with those before it."""
    print('| | Lines | Words | Files | With all above |\n|---|---|---|---|---|')
    total, files = 0, set()
    for part in parts:
        own = {node[1:3] for node in part.words}
        lines = lines_of(library, part.words)
        total, files = total + lines, files | own
        words = sum(node[3] != 'module' for node in part.words)
        print(f'| {part.title} | {lines:,} | {words} | {len(own)} '
              f'| {total:,} lines in {len(files)} files |')
    print()


def print_crates(library, parts):
    """The lines of each crate, by part."""
    print('| Crate | Records | A capture | A recording | A check | The rest | Private |')
    print('|---' * 7 + '|')
    for crate in library.crates:
        lines = [lines_of(library, [node for node in part.words if node[1] == crate])
                 for part in parts]
        if any(lines):
            print(f'| {crate} | ' + ' | '.join(str(count or '') for count in lines) + ' |')
    print()


def by_crate(pairs):
    """Names by crate, as a sentence has them."""
    names = {}
    for crate, name in pairs:
        names.setdefault(crate, set()).add(name)
    return '; '.join(f'{crate} ' + ', '.join(f'`{name}`' for name in sorted(names[crate]))
                     for crate in names)


def print_list(library, part, with_words):
    """A part's files, each with its lines, its words and its first sentence."""
    print(f'### {part.title}\n')
    print('| File | Lines |' + (' Words |' if with_words else '') + ' What it is |')
    print('|---' * (4 if with_words else 3) + '|')
    for crate, module, spec, named in files_of(library, part.words):
        lines = sum(len(spec.words[word]) for word in named)
        shown = ', '.join(f'`{word}`' for word in named if word != 'module')
        print(f'| {crate} [`{module}`](../crates/{crate}/specs/{module}.antt) | {lines} | '
              + (f'{shown} | ' if with_words else '') + f'{spec.about} |')
    print()
    if with_words:
        print(textwrap.fill(
            f'It speaks of these types and traits of the code: '
            f'{by_crate(node[1:] for node in part.types)}. '
            f'The toolchain\'s modules whose words it cites: {by_crate(sorted(part.outside))}.',
            100) + '\n')


def print_way(seen, word):
    """How a word is reached."""
    for node in [it for it in seen if it[-1] == word]:
        way = []
        while node:
            way.append('.'.join(node[1:]))
            node = seen[node]
        print(' <- '.join(way))


def the_rest(library):
    """All else that libraries hand out."""
    for crate in library.crates.values():
        for item in crate.items:
            if item.split('::')[0] in crate.public:
                yield ('item', crate.name, item)
        for at, (owner, _, _) in enumerate(crate.impls):
            if owner in crate.public:
                yield ('impl', crate.name, str(at))


def every_word(library):
    for crate in library.crates.values():
        for module, spec in crate.specs.items():
            for word in spec.words:
                yield ('word', crate.name, module, word)


def main():
    library, seen = Library(), {}
    parts = [Part(library, title, [('item', *root) for root in roots], seen)
             for title, roots in ROOTS]
    parts.append(Part(library, 'What other public contracts rest on', the_rest(library), seen))
    if '--way' in sys.argv:
        print_way(seen, sys.argv[sys.argv.index('--way') + 1])
        return
    private = Part(library, 'What private contracts alone cite', every_word(library), seen)
    print('## How much that is\n')
    print_counts(library, parts + [private])
    print('## What a verdict rests on\n')
    for part in parts[:LISTED]:
        print_list(library, part, True)
    if '--all' in sys.argv:
        print('## The rest\n')
        print_crates(library, parts + [private])
        for part in parts[LISTED:]:
            print_list(library, part, False)


if __name__ == '__main__':
    main()
