"""Brings the repository's own names to the spelling of today's Rattle; run once, after the kit's port.py.

Definitions, lemmas, variables and imports that were written in mixed case are in snake case (`netOf` is `net_of`); so are
fields and constructors of specs/ that had dashes. A name that would fall together with another one, and two definitions
that answer a statement, have names of their own below. Must-fail edits are turned as the texts that they change, and so
are the pages, but for the notes of docs/LANDINGS.md. Functions of src/ and exported names keep their spelling.
"""

import pathlib
import re

OWN = {
    "hasNet": "holds_net",
    "hasBlock": "holds_block",
    "workAfter": "WorkAfter",
    "buildWork": "BuildWork",
    "in-box": "within_box",
    "live-value": "live_valuing",
}
# a name of the repository that looks like one, or stands in code for something else
KEPT = {"kB", "tN", "soFar"}
# words of the kit's libraries, which only edits and pages have left
LIBRARY = {
    "natAbs": "nat_abs",
    "toBits": "to_bits",
    "ofInt": "of_int",
    "toZ": "to_z",
    "ofZ": "of_z",
    "sumTo": "sum_to",
    "numberAt": "number_at",
    "localAt": "local_at",
}
DASHED = re.compile(r"^\s*(?:pub )?([a-z][a-z0-9]*(?:-[a-z0-9]+)+) :")
WORD = re.compile(r"[A-Za-z0-9_'′₀₁₂₃₄₅₆₇₈₉-]+")
MIXED = re.compile(r"^[a-z][a-z0-9]*[A-Z]|^[a-z][a-z0-9]*_?[a-z0-9]*[A-Z]")


def snake(part):
    return re.sub(r"([a-z0-9])([A-Z])", lambda m: m.group(1) + "_" + m.group(2).lower(), part)


def renamed(word, dashed):
    if word in OWN:
        return OWN[word]
    if word in dashed:
        return word.replace("-", "_")
    parts = []
    for part in word.split("-"):
        if part in OWN:
            part = OWN[part]
        elif part in LIBRARY:
            part = LIBRARY[part]
        elif part not in KEPT and MIXED.match(part):
            part = snake(part)
        parts.append(part)
    return "-".join(parts)


def specs_with_dashes(root):
    found = set()
    for path in root.glob("crates/*/specs/**/*.antt"):
        for line in path.read_text().splitlines():
            match = DASHED.match(line)
            if match:
                found.add(match.group(1))
    return found


def turned(text, dashed):
    return WORD.sub(lambda m: renamed(m.group(0), dashed), text)


def turned_edit(text, dashed):
    lines = []
    for line in text.split("\n"):
        if line.startswith(("old: ", "new: ")):
            head, rest = line[:5], line[5:]
            rest = rest.replace("Rattle·", "Rattle.").replace("′", "'")
            rest = re.sub(r"(?<=[A-Za-z0-9_»)]) \.(?=[a-z0-9«])", ".", rest)
            rest = re.sub(r"λ r\. ⌜ r ≡ (.*?)(?: ⌝|$)", r"result ≡ \1", rest)
            line = head + turned(rest, dashed)
        lines.append(line)
    return "\n".join(lines)


def main():
    root = pathlib.Path(__file__).resolve().parent.parent
    dashed = specs_with_dashes(root)
    for path in sorted(root.glob("crates/**/*")):
        if "out" in path.parts:
            continue
        if path.suffix in (".antt", ".rt"):
            turn = turned
        elif path.suffix == ".edit":
            turn = turned_edit
        else:
            continue
        old = path.read_text()
        new = turn(old, dashed)
        if new != old:
            path.write_text(new)
    pages = [root / "README.md", root / "CONTRIBUTING.md", *root.glob("docs/*.md")]
    for path in pages:
        if path.name not in ("LANDINGS.md", "PORT.md"):
            old = path.read_text()
            new = re.sub(r"`[^`\n]*`", lambda m: turned(m.group(0), dashed), old)
            if new != old:
                path.write_text(new)


if __name__ == "__main__":
    main()
