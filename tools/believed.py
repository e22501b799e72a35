#!/usr/bin/env python3
"""believed.py [--names | --check]: print the files of definitions that a reader of this repository must believe.

A proof needs no belief, but a statement says only what the definitions that it names say. This script begins at the statements and
at the contracts of the functions for outside callers, follows every name to its definition and from there on, and prints the files
so reached: how many lines they have without comments, blank lines and `use` lines, and how many of these belong to definitions
that are reached.

    python3 tools/believed.py            the files, their total, and what is not as it should be
    python3 tools/believed.py --names    also the definitions of each file that are reached, and those that are not
    python3 tools/believed.py --check    compare with docs/PROOFS.md, and exit 1 if the two differ: its table 'Files to believe' has
                                         exactly these files, and its tables name only what the files named beside it define

Where it begins:

- statements: everything public in the files named in STATEMENTS, and in other files of proofs what the tables of docs/PROOFS.md that
  have a column of statements name;
- entry points: the public functions of library crates (those of lib.rt, and those that it hands on by `pub use`) that have no
  `requires`.

A public function with a `requires` is for our own crates, which are proved to meet it: what only these reach is listed apart and not
counted. The crates named in APART are left out. A file specs/Inner*.antt is not to be believed: a statement or a contract that
reaches one is a finding, and is not followed further, unless docs/PROOFS.md has it in its table 'Fixed by statements'. A statement that
rests on a definition in proofs/ is a finding too.
"""
import pathlib
import re
import sys

ROOT = pathlib.Path(__file__).resolve().parent.parent
CRATES = ROOT / 'crates'
PROOFS = ROOT / 'docs' / 'PROOFS.md'
STATEMENTS = ('Demands', 'Theorems', 'ListTheorems', 'AssumedCases', 'MarkedCases', 'StrippedCases', 'TextCases')
APART = ('exhaustive', 'vectors')  # for tests: no statement rests on them
OURS = (  # ask nothing, and are for our own crates all the same
    'assumptions::stated', 'enumeration::Task::new', 'enumeration::Task::root', 'enumeration::Task::visible', 'formula::Assignment::none',
    'formula::Assignment::satisfies', 'formula::Assignment::variables', 'formula::Clause::empty', 'formula::Clause::other_side',
    'formula::Clause::variables', 'formula::Kind::of', 'formula::all_hold', 'formula::decode', 'masks::lowest', 'masks::meets', 'masks::minus',
    'masks::size', 'matched::named', 'splitting::all_satisfied', 'splitting::choose_free', 'writing::Writer::behind', 'writing::Writer::new',
)

USE = re.compile(r'Rattle\.(\w+)\.(specs|proofs)\.([\w.-]+?)(?:\.\{(.*)\}|\s+as\s+(\S+?))?;?$')
MODIFIERS = ('pub', 'abbrev', 'unfoldable')


def code_lines(path, comment='--'):
    """The lines of a file that say something, without comments."""
    lines = (re.sub(rf'(^|\s){comment}.*', '', line).rstrip() for line in path.read_text(encoding='utf-8').splitlines())
    return [line for line in lines if line]


def indent(line):
    return len(line) - len(line.lstrip())


def blocks(lines):
    """The lines in groups: a line, and those after it that stand further right."""
    group = []
    for line in lines:
        if group and indent(line) <= indent(group[0]):
            yield group
            group = []
        group.append(line)
    if group:
        yield group


def words_of(lines):
    """The words of a text that may name a definition: no label before an equals sign; a field behind a point is left out by `find`."""
    text = re.sub(r'[^\s(){}\[\];,|]+\s+=(?=\s)', ' ', '\n'.join(lines))
    return [word for word in re.findall(r'[^\s(){}\[\];,|]+', text) if not word.startswith('.')]


class Scope:
    """What a file's `use` lines bring in: names, each with its file and its name there, and short names of files."""

    def __init__(self):
        self.names, self.files = {}, {}

    def use(self, line):
        found = USE.search(line)
        if not found:
            return
        crate, folder, module, names, short = found.groups()
        if not (CRATES / crate).is_dir():  # the kit's
            return
        if module.startswith('declared.'):  # a type of the code
            path = '::'.join([crate] + module.replace('.TheVariants', '').split('.')[1:])
        else:
            path = CRATES / crate / folder / f'{module}.antt'
        for name in (names or '').split(','):
            there, _, here = name.strip().partition(' as ')
            self.names[here or there] = (path, there)
        if short:
            self.files[short] = path

    def find(self, word):
        """The file and the name there that a word stands for, if it stands for one."""
        word = word.rstrip('.')
        short, _, name = word.partition('.')
        return (self.files[short], name) if name and short in self.files else self.names.get(word) or self.names.get(short)


class Definition:
    def __init__(self, name, telescope):
        self.name = name
        self.stated, self.equations = list(telescope), []  # its type, with the parameters of its module; what it is equal to
        self.lines = 0
        self.public = self.unfolds = False

    def words(self):
        """A theorem says its type; a definition is all of its text."""
        return [w for w in words_of(self.stated + (self.equations if self.unfolds else [])) if w != self.name]


class File:
    """A file of definitions or of proofs. A constructor's name stands for its type."""

    def __init__(self, path):
        self.path, self.scope, self.definitions, self.fields = path, Scope(), {}, set()
        lines = code_lines(path)
        self.lines = sum(not re.match(r'\s*(use|pub mod)\s', line) for line in lines)
        self.read(lines, [])

    def define(self, name, block, telescope, modifiers):
        definition = self.definitions[name] = Definition(name, telescope)
        definition.stated += block
        definition.lines = len(block)
        definition.public = 'pub' in modifiers
        definition.unfolds = len(modifiers) > definition.public or self.path.parent.name == 'specs'
        self.scope.names[name] = (self.path, name)
        return definition

    def read(self, lines, telescope):
        for block in blocks(lines):
            words = block[0].split()
            modifiers = [word for word in words[:2] if word in MODIFIERS]
            words = words[len(modifiers):]
            inner = [[w for w in part[0].split() if w != 'pub'][0] for part in blocks(block[1:])]
            if words[0] == 'use':
                self.scope.use(block[0])
            elif words[0] == 'module':
                self.read(block[1:], telescope + block[:1])
            elif words[0] in ('record', 'data'):
                definition = self.define(words[1], block, telescope, modifiers)
                definition.unfolds = True
                if words[0] == 'record':
                    self.fields.update(inner)
                else:
                    for name in inner:
                        self.definitions[name] = definition
                        self.scope.names[name] = (self.path, name)
            elif words[1:2] == [':']:
                self.define(words[0], block, telescope, modifiers)
            elif words[0] in self.definitions:
                self.definitions[words[0]].equations += block
                self.definitions[words[0]].lines += len(block)

    def all(self):
        return dict.fromkeys(self.definitions.values())


class Reader:
    def __init__(self):
        self.files = {}

    def file(self, path):
        if path not in self.files:
            self.files[path] = File(path)
        return self.files[path]

    def follow(self, roots):
        """From roots (what, its scope, its words): the definitions reached, by file; the types of the code; the findings."""
        reached, types, findings = {}, set(), set()
        fixed = {(path, name) for heading, _, files, names in rows() if heading == 'Fixed by statements' for path in files for name in names}
        work = list(roots)
        while work:
            root, scope, words = work.pop()
            for word in words:
                path, name = scope.find(word) or (None, None)
                if isinstance(path, str):
                    types.add(path)
                    continue
                definition = self.file(path).definitions.get(name) if path else None
                if definition is None or definition in reached.get(path, ()):
                    continue
                inner = path.stem.startswith('Inner') and (path, name) not in fixed
                if inner or path.parent.name == 'proofs' and path.stem not in STATEMENTS:
                    findings.add(f'{root} rests on {name} in {path.relative_to(ROOT)}')
                if not path.stem.startswith('Inner'):
                    reached.setdefault(path, []).append(definition)
                    work.append((root, self.file(path).scope, definition.words()))
        return reached, types, sorted(findings)


def rows():
    """The rows of the tables of docs/PROOFS.md: heading and header above it, the files that it names, the names in it."""
    heading, header, last = '', '', None
    for line in PROOFS.read_text(encoding='utf-8').splitlines():
        if line.startswith('#'):
            heading = line.lstrip('# ')
        if not line.startswith('|'):
            header = ''
        elif not header:
            header = line
        elif not line.startswith('|---'):
            files = []
            for word in re.findall(r'(?:crates/\w+/\w+/)?\w+\.antt', header + line):
                last = ROOT / word if word.startswith('crates/') or last is None else last.parent / word
                files.append(last)
            if '| same |' in line:
                files.append(last)
            yield heading, header, files, re.findall(r'`([^`\s]+)`', line)


def statements(reader):
    """The statements: of a file all, or those that the document names."""
    wanted = {path: None for path in sorted(CRATES.glob('*/*/*.antt')) if path.stem in STATEMENTS}
    for _, header, files, names in rows():
        for path in files:
            if 'statement' in header and path.parent.name == 'proofs' and path.stem not in STATEMENTS:
                wanted.setdefault(path, []).extend(names)
    for path, names in wanted.items():
        for definition in reader.file(path).all():
            if definition.public and (names is None or definition.name in names):
                yield f'{path.parent.parent.name}: {definition.name}', reader.file(path).scope, definition.words()


def contracts(asking):
    """The contracts of the public functions, of those with a `requires` or of those without."""
    for lib in sorted(CRATES.glob('*/src/lib.rt')):
        crate = lib.parent.parent.name
        handed_on = [
            (module, name.strip())
            for module, names in re.findall(r'^pub use (\w+)::\{?([\w,\s]+)\}?;', lib.read_text(encoding='utf-8'), re.M)
            for name in names.split(',')
        ]
        types = {name for _, name in handed_on} | set(re.findall(r'^pub (?:struct|enum) (\w+)', lib.read_text(encoding='utf-8'), re.M))
        for path in [] if crate in APART else sorted(lib.parent.glob('*.rt')):
            lines, scope, inside = code_lines(path, '//'), Scope(), ''
            for line in lines:
                if line.lstrip().startswith('ghost use'):
                    scope.use(line)
            for at, line in enumerate(lines):
                block = re.match(r"impl(?:<[^>]*>)? (\w+)(?:<[^>]*>)? \{", line)
                inside = block.group(1) if block else '' if line == '}' else inside
                found = re.match(r'(    )?pub (?:const )?(?:extern "C" )?fn (\w+)', line)
                if not found or bool(found.group(1)) != bool(inside):
                    continue
                if inside in types if inside else path == lib or (path.stem, found.group(2)) in handed_on:
                    head = '\n'.join(lines[at:at + [it.strip() for it in lines[at:]].index('{')]) if '{' not in line else line
                    contract = head[re.search(r'\n +(requires|ensures)|$', head).start():]
                    name = '::'.join([crate, *[inside] * bool(inside), found.group(2)])
                    if asking == ('requires' in contract or name in OURS):
                        yield name, scope, words_of([contract])


def believed(reached):
    """The files of definitions among those reached."""
    return [path for path in sorted(reached) if path.parent.name == 'specs' and path.stem not in STATEMENTS]


def show(reader, reached, names):
    for path in believed(reached):
        file, found = reader.file(path), reached[path]
        print(f'{file.lines:5} {sum(d.lines for d in found):5}  {path.relative_to(ROOT)}')
        if names:
            print('             reached:', ', '.join(d.name for d in file.all() if d in found))
            if len(found) < len(file.all()):
                print('             not reached:', ', '.join(d.name for d in file.all() if d not in found))


def differences(reader, reached):
    """What docs/PROOFS.md has otherwise."""
    listed = {path for heading, _, files, _ in rows() if heading == 'Files to believe' for path in files}
    for path in sorted(set(believed(reached)) - listed):
        yield f'to believe, but not in the table: {path.relative_to(ROOT)}'
    for path in sorted(listed - set(believed(reached))):
        yield f'in the table, but not to believe: {path.relative_to(ROOT)}'
    for heading, header, files, names in rows():
        here = [path for path in files if path.exists()]
        yield from (f'no such file: {path.relative_to(ROOT)}' for path in files if path not in here)
        known = {name for path in here for name in [*reader.file(path).definitions, *reader.file(path).fields]}
        if 'statement' in header:
            known.update(name for path in here for name in reader.file(path).scope.names)
        if here and (heading == 'Files to believe' or 'statement' in header):
            yield from (f'not defined in {here[-1].relative_to(ROOT)}: {name}' for name in names if name not in known)


def main():
    reader = Reader()
    stated, entries = list(statements(reader)), list(contracts(asking=False))
    reached, types, findings = reader.follow(entries + stated)
    if '--check' in sys.argv:
        found = list(differences(reader, reached))
        print('\n'.join(found) or f'docs/PROOFS.md names the {len(believed(reached))} files to believe.')
        sys.exit(1 if found else 0)
    names = '--names' in sys.argv
    print(f'Files to believe, from {len(stated)} statements and the contracts of {len(entries)} functions: lines, lines reached')
    show(reader, reached, names)
    print(f'{sum(reader.file(path).lines for path in believed(reached)):5}        in all')
    print('\nTypes of the code that they name:', ', '.join(sorted(types)))
    own, _, _ = reader.follow(contracts(asking=True))
    print('\nReached only by functions for our own crates, and not counted:')
    show(reader, {path: found for path, found in own.items() if path not in reached}, names)
    print('\nFindings:' if findings else '\nNo findings.')
    for finding in findings:
        print(' ', finding)


if __name__ == '__main__':
    main()
