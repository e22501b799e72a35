#!/usr/bin/env python3
"""checks.py: prove every crate from nothing, one after the other, and print the time and the memory of each check.

Removes the folders out/ of this repository's crates. Needs `rt` on the path. The memory is the most that a process of the check held at
once. A check begins with what other copies on the machine have kept, if there are any.
"""
import os
import pathlib
import shutil
import subprocess
import time

ROOT = pathlib.Path(__file__).resolve().parent.parent


def crates():
    for line in (ROOT / 'crates.txt').read_text().splitlines():
        if line and not line.startswith('#'):
            yield line.split(':')[0].split()[0]


def measure(crate):
    """Seconds and MiB of one check; the crates below are proved already."""
    start = time.monotonic()
    check = subprocess.Popen(['rt', 'check'], cwd=ROOT / 'crates' / crate, stdout=subprocess.DEVNULL, stderr=subprocess.STDOUT)
    _, status, usage = os.wait4(check.pid, 0)
    if status != 0:
        raise SystemExit(f'{crate} is not proved')
    return time.monotonic() - start, usage.ru_maxrss / 1024


def main():
    for kept in ROOT.glob('crates/*/out'):
        shutil.rmtree(kept)
    print('| crate | seconds | MiB |')
    print('|---|---:|---:|')
    total = 0.0
    for crate in crates():
        seconds, memory = measure(crate)
        total += seconds
        print(f'| `{crate}` | {seconds:.0f} | {memory:.0f} |', flush=True)
    print(f'| all | {total:.0f} | |')


if __name__ == '__main__':
    main()
