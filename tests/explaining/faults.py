"""What cannot be explained: command lines and streams of no use, each with a message and status 2, and a
library that answers something else than its net and block come to, or whose live call does not agree with
the exact call, which is told with status 3."""
import os
import subprocess

from evaluator import ROOT
from explaining.told import PROGRAM, field, run, same, stop

FAULT, DIFFERS = 2, 3  # statuses


def complained(*words, fragment="", **streams):
    """Ends with a message that has this in it, and prints nothing."""
    text, complaint = run(*words, status=FAULT, **streams)
    if text or not complaint.startswith("explain: ") or fragment not in complaint:
        stop(words, f"wrote {text[:80]!r} and said {complaint[:80]!r}")


def command_lines(good):
    point = (good, "1", 1, 1, 1, 1)
    bad = [(), (good,), (good, "1"), point[:-1], (*point, 1), (*point, "--page"), (*point, "--page", "")]
    bad += [(*point, "--pages", "x"), (good, "1", "--refused")]
    for words in bad:
        complained(*words)
    none = ["3.4", "", " 1", "1 ", "x", "-", "- 1", "+-1", "0x10", "1e3", "9" * 400, b"\xff", "\u0663"]
    none += ["\u2212", "\u2212-1", "-\u22121", "1\u22122", "\u2212 1", "\u20131"]  # minus signs, and a dash
    coordinate, divisor = ("-2147483648", "2147483647"), ("0", "4294967295")
    past = [("-2147483649", "\u22122147483649", "2147483648"), ("-1", "\u22121", "4294967296")]
    cases = [(at, number, coordinate) for at in range(3) for number in [*none, *past[0]]]
    cases += [(3, number, divisor) for number in [*none, *past[1]]]
    for at, number, (least, most) in cases:
        words = [2, 2, 2, 1]
        words[at] = number
        complained(good, "1", *words, fragment=f"is no whole number from {least} to {most}")
    complained(good, "1", 2, 2, 2, "--1", fragment="there is no option --1")
    return len(bad) + len(cases) + 1


def files(good, folder):
    complained(folder, "1", 1, 1, 1, 1, fragment="Is a directory")
    complained(folder / "missing", "1", 1, 1, 1, 1, fragment="No such file")
    complained("", "1", 1, 1, 1, 1, fragment="No such file")
    complained("bad\nname\x1b[2J", "1", 1, 1, 1, 1, fragment="bad\ufffdname\ufffd[2J")
    complained(good, "1", 2, 1, 1, 1, "--page", folder / "missing/page.html", fragment="No such file")
    complained(good, "1", 2, 1, 1, 1, "--page", folder, fragment="Is a directory")
    complained(good, "1", 2, 1, 1, 1, "--page", "/dev/full", fragment="No space left")
    before = good.read_bytes()
    complained(good, "1", 2, 1, 1, 1, "--page", folder / "." / good.name, fragment="this is the field file")
    same("a page over the file", "file", good.read_bytes(), before)
    return 8


def streams(good):
    """A reader that goes away, a full output, closed streams: no panic."""
    words = [str(good), "1", "2", "1", "1", "1"]
    with open("/dev/full", "wb") as full:
        complained(*words, fragment="standard output: No space left", stdout=full)
        run("--help", status=FAULT, stdout=full)
    reader, writer = os.pipe()
    os.close(reader)
    _, complaint = run(*words, status=FAULT, stdout=writer)
    os.close(writer)
    if complaint:
        stop("a closed pipe", f"said {complaint!r}")
    with open("/dev/full", "wb") as full:
        ran = subprocess.run([PROGRAM, "missing", "1", "1", "1", "1", "1"], stderr=full)
        if ran.returncode != FAULT:
            stop("full standard error", f"ended with {ran.returncode}")
    run(*words, preexec_fn=lambda: (os.close(0), os.close(1)))
    if "usage: explain" not in run("--help")[0]:
        stop("--help", "no usage")
    return 6


# The archive with one call under another name, behind one that changes what it answers.
LIES = {
    "answer": "answered.numerator += 1;",
    "uncertainty": "answered.uncertainty -= 1;",
    "denominator": "answered.denominator *= 2;",
    "refusal": "answered.number = 23;",
}
LIVE_LIES = {
    "answer": "answered.numerator += 0.5;",
    "uncertainty": "answered.uncertainty -= with_uncertainty;",
    "zero": "if (!with_uncertainty) answered.uncertainty = -0.0;",
    "refusal": "answered.number = 15;",
}
LIAR = """
#include "torskavel.h"
typedef struct torskavel_{kind}point_answer answer;
typedef struct torskavel_unit unit;
answer true_{kind}answer(unit, const uint32_t *, size_t, const int16_t *, size_t, const uint16_t *, size_t,
    int32_t, int32_t, int32_t, uint32_t{type});
answer torskavel_{kind}answer(unit held, const uint32_t *net, size_t net_length, const int16_t *c,
    size_t c_length, const uint16_t *u, size_t u_length, int32_t x, int32_t y, int32_t z,
    uint32_t d{type}{flag}) {{
    answer answered =
        true_{kind}answer(held, net, net_length, c, c_length, u, u_length, x, y, z, d{comma}{flag});
    {lie}
    return answered;
}}
"""
EXACT = {"kind": "", "type": "", "flag": "", "comma": ""}
LIVE = {"kind": "live_", "type": ", uint8_t", "flag": " with_uncertainty", "comma": ","}


def liar(out, call, source):
    """The program with such a library, in which the call is behind `true_` and its name."""
    out.mkdir()
    (out / "liar.c").write_text(source)
    rename = f"--redefine-sym=torskavel_{call}=true_{call}"
    cc = [os.environ.get("CC", "cc"), "-I", ROOT / "include", "-c", "-o", out / "liar.o", out / "liar.c"]
    rustc = ["rustc", "--edition", "2024", "-L", out, "-l", "static=c_api", "-o", out / "explain"]
    renamed = ["objcopy", rename, ROOT / "crates/c_api/out/libc_api.a", out / "libc_api.a"]
    added = ["ar", "r", out / "libc_api.a", out / "liar.o"]
    for command in (renamed, cc, added, [*rustc, ROOT / "tools/explain/main.rs"]):
        subprocess.run(command, check=True, stderr=subprocess.DEVNULL)
    return out / "explain"


def liars(good, folder):
    page = folder / "liar.html"
    sums = "THE SUMS DO NOT COME TO THIS ANSWER", "the sums do not come to the library's answer"
    live = "THE LIVE CALL DOES NOT AGREE", "the live call does not agree with the exact call"
    lies = [(EXACT, *lie, live if lie[0] == "refusal" else sums) for lie in LIES.items()]
    lies += [(LIVE, *lie, live) for lie in LIVE_LIES.items()]
    for kind, name, lie, (said, complains) in lies:
        call = f"{kind['kind']}answer"
        program = liar(folder / (kind["kind"] + name), call, LIAR.format(**kind, lie=lie))
        text, complaint = run(good, "1", 2, 1, 1, 1, program=program, status=DIFFERS)
        run(good, "1", 2, 1, 1, 1, "--page", page, program=program, status=DIFFERS)
        if said not in text or said not in page.read_text() or complains not in complaint:
            stop(f"a library with another {kind['kind']}{name}", "nothing is said")
    return 2 * len(lies)


def tried(folder):
    good = folder / "good.field"
    good.write_bytes(field((3, 2, 2), range(12), range(12)))
    return command_lines(good) + files(good, folder) + streams(good) + liars(good, folder)
