#!/usr/bin/env python3
"""Runs the program `explain` as its user does, on files made here, and compares what it tells with the
evaluator; then holds the page for the help line to it.

Run in the repository, after `tools/explain/run --help` and `cargo build --release --offline` in evaluator/.
"""
import sys
import tempfile
import time
from pathlib import Path

sys.path.append(str(Path(__file__).resolve().parents[1]))
from explaining import factory, faces, faults, help_line, impossible, live, old_files, origins, page, placings
from explaining import points, refusals, uncertain_gaps


def main():
    began = time.monotonic()
    with tempfile.TemporaryDirectory() as folder:
        parts = points, refusals, uncertain_gaps, faces, live, placings, impossible
        parts += origins, old_files, faults, page, factory, help_line
        counts = [part.tried(Path(folder)) for part in parts]
    print(f"explain: {sum(counts)} runs as the evaluator has it, {time.monotonic() - began:.1f} s")


main()
