#!/usr/bin/env python3
"""Counts the instructions of some acts with valgrind, which vary less than times where others use the machine.

Run it after `cargo build --release`. It needs valgrind."""

import math
import os
import re
import subprocess

HERE = os.path.dirname(os.path.abspath(__file__))
PROGRAM = os.path.join(HERE, "target", "release", "norwythai-bench")
FORMULAS = ["a1", "b1", "c1", "d1", "e1", "f_stairs6", "f_hunt_first", "g1", "h1"]
ACTS = ["list", "page", "walk", "judge"]
IMPLEMENTATIONS = ["proved", "plain", "tuned"]


def count(implementation, formula, act):
    """The instructions of one act."""
    command = ["valgrind", "--tool=callgrind", "--callgrind-out-file=/dev/null", "--toggle-collect=*once*counted*"]
    command += [PROGRAM, "once", implementation, formula, act]
    printed = subprocess.run(command, check=True, stderr=subprocess.PIPE, text=True).stderr
    return int(re.search(r"Collected : (\d+)", printed).group(1))


def main():
    print("| formula | act | proved | plain | tuned | proved/plain | proved/tuned |")
    print("|---|---|---:|---:|---:|---:|---:|")
    ratios = []
    for formula in FORMULAS:
        for act in ACTS:
            proved, plain, tuned = (count(name, formula, act) for name in IMPLEMENTATIONS)
            ratios.append(proved / plain)
            ratio = f"{proved / plain:.2f} | {proved / tuned:.2f}"
            print(f"| {formula} | {act} | {proved:,} | {plain:,} | {tuned:,} | {ratio} |", flush=True)
    mean = math.exp(sum(map(math.log, ratios)) / len(ratios))
    print(f"\n- proved/plain, geometric mean: {mean:.2f}; largest: {max(ratios):.2f}")


if __name__ == "__main__":
    main()
