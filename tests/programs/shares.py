#!/usr/bin/env python3
"""Runs the program `shares` itself, crates/shares/out/shares, and compares all that it writes with the evaluator's prints.

Run in the repository, after `rt run </dev/null` in crates/shares and `cargo build --release --offline` in evaluator/. No
contract can say what a program reads: that it takes all that is typed, however it comes, is held here alone.
"""
import errno
import itertools
import os
import select
import subprocess
import sys
import tempfile
import time
from pathlib import Path

sys.path.append(str(Path(__file__).resolve().parents[1]))
from evaluator import ROOT, prints

PROGRAM = str(ROOT / "crates/shares/out/shares")
STORED = ROOT / "vectors/shares.txt"
PIPE = subprocess.PIPE
LONG = 4 << 20  # bytes, more than a pipe holds
PAUSE = 0.002  # seconds
WAIT = 10  # seconds, in which an answer must have come
FAULT = 1  # the status of a run whose stream cannot be read or written


def check(case, written, expected, fault="", errors=""):
    """Ends the run where the program wrote something else, or said something else of a fault."""
    for what, found, right in (("wrote", written, expected), ("said", errors, fault)):
        if found != right:
            sys.exit(f"shares, {case}: {what} {found[:80]!r}, not {right[:80]!r}")


def run(case, expected, fault="", status=0, **streams):
    """The program as it runs with these standard streams."""
    ran = subprocess.run([PROGRAM], **{"stdout": PIPE} | streams, stderr=PIPE, timeout=WAIT)
    check(case, (ran.stdout or b"").decode(), expected, fault, ran.stderr.decode())
    if ran.returncode != status:
        sys.exit(f"shares, {case}: ended with {ran.returncode}, not {status}")


def failed(case, number, kind, **streams):
    """The program where a stream fails with this number of the system: it is told, and nothing is printed."""
    told = f'Error: Os {{ code: {number}, kind: {kind}, message: "{os.strerror(number)}" }}\n'
    run(case, "", told, FAULT, **streams)


def stored():
    """The orders of vectors/shares.txt with their prints, with and without a final newline."""
    text = "".join(line for line in STORED.open() if not line.startswith("#"))
    first, *cases = text.split("order ")
    found = [case.split("\n", 1) for case in cases]
    assert first == "" and len(found) >= 30, f"{len(found)} orders in {STORED}"
    for order, expected in found:
        for end in ("", "\n"):
            run(f"order {order!r}", expected, input=(order + end).encode())
    return 2 * len(found)


def inputs():
    """Inputs as they may be typed."""
    yield from (b"", b"\n", b"\n\n", b"1\r\n", b"132\r\n", b"1 3 2\n", b"1\0", b"12341", b"12341\n")
    for byte in range(256):
        yield bytes([byte])
        yield bytes([byte, 10])
    for length in range(4):
        for digits in itertools.product(b"1234", repeat=length):
            yield bytes(digits) + b"\n"
    # around ten bytes: good ones, a bad one first or last, newlines alone
    for n in range(8, 13):
        for typed in (b"1" * n, b"123412341234"[:n], b"4" * n, b"x" + b"1" * (n - 1), b"1" * (n - 1) + b"x", b"\n" * n):
            yield typed
            yield typed + b"\n"
    # a newline that is not the final one, at each place up to ten
    for n in range(12):
        for rest in (b"1", b"x", b"\n", b"1\n", b"\n\n", b"\n1", b"123412341234"):
            yield b"1" * n + b"\n" + rest


def typed():
    """Each input at once, through a pipe."""
    cases = list(dict.fromkeys(inputs()))
    for case, expected in zip(cases, prints(cases)):
        run(f"{case!r} typed", expected, input=case)
    return len(cases)


def piece_by_piece():
    """Each byte by itself; what is printed may not come before the end, or before ten bytes are there."""
    cases = [b"132\n", b"11112", b"1\r\n", b"11111111\n", b"11111111\n1", b"111111111\n", b"12341234123412"]
    for case, expected in zip(cases, prints(cases)):
        program = subprocess.Popen([PROGRAM], stdin=PIPE, stdout=PIPE, stderr=PIPE, bufsize=0)
        for byte in case[:10]:
            if select.select([program.stdout], [], [], PAUSE)[0]:
                sys.exit(f"shares, {case!r} byte by byte: answered before all bytes were there")
            program.stdin.write(bytes([byte]))
        if len(case) < 10:
            program.stdin.close()
        # else the input stays open: ten bytes decide
        if not select.select([program.stdout], [], [], WAIT)[0]:
            sys.exit(f"shares, {case!r} byte by byte: no answer")
        written, errors = program.stdout.read(), program.stderr.read()
        program.stdin.close()
        check(f"{case!r} byte by byte", written.decode(), expected, "", errors.decode())
        if program.wait(WAIT) != 0:
            sys.exit(f"shares, {case!r} byte by byte: ended with {program.returncode}")
    return len(cases)


def long():
    """Megabytes, from a pipe that the program does not empty and from a file."""
    cases = [b"1" * LONG, b"132\n" * (LONG // 4), b"\n" * LONG, b"132\n" + bytes(LONG)]
    for case, expected in zip(cases, prints(cases)):
        name = f"{len(case)} bytes that begin {case[:5]!r}"
        run(name, expected, input=case)
        with tempfile.TemporaryFile() as file:
            file.write(case)
            file.seek(0)
            run(name, expected, stdin=file)
    return 2 * len(cases)


def faults():
    """Streams that cannot be read or written: the fault is told on standard error and by the status."""
    [empty] = prints([b""])
    run("no input", empty, stdin=subprocess.DEVNULL)
    none = errno.EBADF, "Uncategorized"
    with open(os.devnull, "wb") as output:
        failed("input open for writing", *none, stdin=output)
    directory = os.open("/", os.O_RDONLY)
    failed("a directory as input", errno.EISDIR, "IsADirectory", stdin=directory)
    os.close(directory)
    failed("closed input", *none, preexec_fn=lambda: os.close(0))
    with open("/dev/full", "wb") as full:
        failed("full output", errno.ENOSPC, "StorageFull", input=b"132\n", stdout=full)
    failed("closed output", *none, input=b"132\n", preexec_fn=lambda: os.close(1))
    return 6


def main():
    began = time.monotonic()
    count = sum(part() for part in (stored, typed, piece_by_piece, long, faults))
    print(f"shares: {count} runs as the evaluator has it, {time.monotonic() - began:.1f} s")


main()
