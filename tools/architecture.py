#!/usr/bin/env python3
"""architecture.py [--write | --check]: the picture of the crates in docs/ARCHITECTURE.md.

    python3 tools/architecture.py            print it
    python3 tools/architecture.py --write    put it between the two marks in docs/ARCHITECTURE.md
    python3 tools/architecture.py --check    compare it with what stands between them, and exit 1 if they differ

Who uses whom is read from crates.txt; the kit's own libraries are left out. A crate stands one level above the highest that it uses.
Of the crates that it uses only those are shown that no other of them uses, directly or not. What a crate is, is the first line of
its src/lib.rt or src/main.rt.
"""
import pathlib
import sys

ROOT = pathlib.Path(__file__).resolve().parent.parent
DOCUMENT = ROOT / 'docs' / 'ARCHITECTURE.md'
BEGIN, END = '<!-- crates: written by tools/architecture.py -->', '<!-- end -->'


def read_uses():
    """For each crate of crates.txt, the crates of this repository that it uses."""
    uses = {}
    for line in (ROOT / 'crates.txt').read_text(encoding='utf-8').splitlines():
        name, colon, used = line.split('#')[0].partition(':')
        if colon:
            uses[name.split()[0]] = used.split()  # without the word staticlib
    return {name: [used for used in names if used in uses] for name, names in uses.items()}


def below(uses, name):
    """All crates that a crate uses, directly or not."""
    return set(uses[name]).union(*(below(uses, used) for used in uses[name]))


def level(uses, name):
    return 1 + max((level(uses, used) for used in uses[name]), default=-1)


def shown(uses, name):
    """The crates that it uses and that no other of them uses."""
    implied = set().union(*(below(uses, used) for used in uses[name]))
    return [used for used in uses[name] if used not in implied]


def description(name):
    for source in ('lib.rt', 'main.rt'):
        path = ROOT / 'crates' / name / 'src' / source
        if path.exists():
            first = path.read_text(encoding='utf-8').splitlines()[0]
            if not first.startswith('// '):
                sys.exit(f'{name}: src/{source} does not begin with a comment')
            return first[3:].rstrip('.')


def picture():
    uses = read_uses()
    rows = [('level', 'crate', 'uses', 'what it is')]
    for name in sorted(uses, key=lambda name: level(uses, name)):  # of one level, in the order of crates.txt
        rows.append((str(level(uses, name)), name, ', '.join(shown(uses, name)), description(name)))
    widths = [max(len(row[column]) for row in rows) for column in range(3)]
    lines = ['    ' + '  '.join([cell.ljust(width) for cell, width in zip(row, widths)] + [row[3]]) for row in rows]
    return '\n'.join(lines)


def main():
    text = DOCUMENT.read_text(encoding='utf-8')
    before, begin, rest = text.partition(BEGIN)
    present, end, after = rest.partition(END)
    new = f'\n\n{picture()}\n\n'
    if len(sys.argv) == 1:
        print(picture())
    elif not begin or not end:
        sys.exit(f'docs/ARCHITECTURE.md lacks the mark {BEGIN} or {END}')
    elif sys.argv[1] == '--write':
        DOCUMENT.write_text(before + begin + new + end + after, encoding='utf-8')
    elif sys.argv[1] == '--check':
        if present != new:
            sys.exit('docs/ARCHITECTURE.md has another picture of the crates: python3 tools/architecture.py --write')
        print('docs/ARCHITECTURE.md has the picture of the crates.')
    else:
        sys.exit(__doc__.splitlines()[0])


if __name__ == '__main__':
    main()
