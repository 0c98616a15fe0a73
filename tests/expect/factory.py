#!/usr/bin/env python3
"""Writes the factory's table, the numbers of the net 2, 2, 2, 1, with the evaluator: a line for each row, for
the code and for the proofs.

Run in the repository, after `cargo build --release --offline` in evaluator/:

    python3 tests/expect/factory.py            writes the numbers in crates/factory/src/table.rt
                                               and crates/factory_net/proofs/Numbers.antt
    python3 tests/expect/factory.py --check    says whether they are current

What stands above the numbers in these files stays as it is.
"""
import sys
from pathlib import Path

sys.path.append(str(Path(__file__).resolve().parents[1]))
from evaluator import ROOT, net, widths
from stored import keep

SHAPE = (2, 2, 2, 1)
NUMBERS = net(SHAPE)


def rows(remark, width, divided):
    """A line for each row, its numbers of this width divided by these characters; a remark before each layer."""
    w1, w2, w3 = widths(SHAPE)
    lines = []
    for z in range(w3):
        lines.append(f"    {remark} z = {z}\n")
        for y in range(w2):
            row = NUMBERS[w1 * (y + w2 * z) :][:w1]
            lines.append("    " + divided.join(f"{number:{width}}" for number in row) + divided.rstrip() + "\n")
    return "".join(lines)


def renew(path, last, numbers):
    """Keeps the file as far as this last line above the numbers."""
    head, found, _ = path.read_text().partition(f"\n{last}\n")
    assert found, f"{path} has no line {last}"
    keep(path, head + found + numbers)


TABLE = f"pub(crate) const TABLE: [u32; {len(NUMBERS)}] = ["
renew(ROOT / "crates/factory/src/table.rt", TABLE, rows("//", 2, ", ") + "];\n")
renew(ROOT / "crates/factory_net/proofs/Numbers.antt", "numbers =", rows("--", 1, " ∷ ") + "    []\n")
