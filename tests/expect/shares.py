#!/usr/bin/env python3
"""Makes the stored output of the program `shares` with the evaluator.

Run in the repository, after `cargo build --release --offline` in evaluator/:

    python3 tests/expect/shares.py            writes crates/shares/stdout
    python3 tests/expect/shares.py --check    says whether it is current
"""
import sys
from pathlib import Path

sys.path.append(str(Path(__file__).resolve().parents[1]))
from evaluator import ROOT, prints
from stored import keep

CRATE = ROOT / "crates/shares"

[text] = prints([(CRATE / "stdin").read_bytes()])
keep(CRATE / "stdout", text)
