#!/usr/bin/env python3
"""Runs the benchmark and puts what it prints into docs/PERFORMANCE.md, between its marks, and draws docs/growth.svg.

Run it where `cargo run --release` works in this folder. It needs valgrind."""

import os
import re
import subprocess
import sys

HERE = os.path.dirname(os.path.abspath(__file__))
DOCUMENT = os.path.join(HERE, os.pardir, "docs", "PERFORMANCE.md")
WAITS = "The longest waits seen"


def run(*arguments):
    """What the benchmark prints."""
    command = ["cargo", "run", "--release", "--quiet", *(["--", *arguments] if arguments else [])]
    return subprocess.run(command, cwd=HERE, check=True, stdout=subprocess.PIPE, text=True).stdout


def script(name):
    """What a script of this folder prints."""
    command = [sys.executable, os.path.join(HERE, name)]
    return subprocess.run(command, check=True, stdout=subprocess.PIPE, text=True).stdout


def machine():
    """The kind of machine: cores, processor, system."""
    with open("/proc/cpuinfo") as file:
        names = re.findall(r"^model name\s*:\s*(.*)$", file.read(), re.M)
    compiler = subprocess.run(["rustc", "--version"], check=True, stdout=subprocess.PIPE, text=True).stdout.split()[1]
    system = os.uname()
    return f"{len(names)} cores, {names[0]}, {system.sysname} on {system.machine}, rustc {compiler}.\n"


def put(document, mark, text):
    """The document with the text between the marks."""
    pattern = re.compile(rf"(<!-- {mark} -->\n).*?(<!-- end -->)", re.S)
    if not pattern.search(document):
        sys.exit(f"PERFORMANCE.md has no mark {mark}")
    return pattern.sub(lambda found: found.group(1) + "\n" + text.strip() + "\n\n" + found.group(2), document)


def main():
    comparison, _, waits = run().partition(WAITS)
    blocks = {
        "machine": machine(),
        "comparison": comparison,
        "waits": WAITS + waits,
        "growth": run("growth"),
        "stack": run("stack"),
        "instructions": script("instructions.py"),
    }
    with open(DOCUMENT) as file:
        document = file.read()
    for mark, text in blocks.items():
        document = put(document, mark, text)
    with open(DOCUMENT, "w") as file:
        file.write(document)
    script("plot.py")


if __name__ == "__main__":
    main()
