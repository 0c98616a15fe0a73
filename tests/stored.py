"""Files that a script makes, and that the gate holds to what it would make now."""
import sys

from evaluator import ROOT


def keep(path, text):
    """Writes the file; with --check it only says whether what is there is current."""
    if sys.argv[1:] != ["--check"]:
        path.write_text(text)
    elif path.read_text() != text:
        sys.exit(f"not current: {path.relative_to(ROOT)}")
