"""What the evaluator answers. Build it first: `cargo build --release --offline` in evaluator/."""
import functools
import struct
import subprocess
from pathlib import Path

ROOT = Path(__file__).resolve().parents[1]
COMMAND = ROOT / "evaluator/target/release/evaluator"


def ask(*words, text=""):
    """What a command prints that has this text as its standard input."""
    command = [str(COMMAND), *map(str, words)]
    return subprocess.run(command, input=text, stdout=subprocess.PIPE, text=True, check=True).stdout


def live(command, flag, *call):
    """The live answer by command `live`, `lent-live` or `live-value-at`, after the flag the words that `point`
    or `value-at` takes: `both` with N and U as floats, `shift` with N, or `refused` with number and place."""
    kind, *words = ask(command, flag, *call).split()
    if kind == "refused":
        return [kind, *map(int, words)]
    return [kind, *(struct.unpack(">d", bytes.fromhex(bits))[0] for bits in words)]


def prints(inputs):
    """What program `shares` prints for each of these inputs, which are bytes."""
    text = ask("shares-expected", text="".join(typed.hex() + "\n" for typed in inputs))
    typed, *found = text.split("typed ")
    found = [part.split("\n", 1)[1] for part in found]
    assert typed == "" and len(found) == len(inputs)
    return found


def widths(v):
    """Wb = m×Eb+1, where m = v1+v2+v3+v4−3 and Eb = vb+v4."""
    m = sum(v) - 3
    return [m * (v[b] + v[3]) + 1 for b in range(3)]


@functools.cache
def net(v):
    """The net of four multiplicities, in index order x + W1×(y + W2×z)."""
    head, *lines = ask("net", *v).splitlines()
    w1, w2, w3 = widths(v)
    assert head == f"box {w1} {w2} {w3} degree {sum(v) - 3}"
    numbers = [0] * (w1 * w2 * w3)
    for line in lines:
        x, y, z, number = map(int, line.split())
        numbers[x + w1 * (y + w2 * z)] = number
    return numbers
