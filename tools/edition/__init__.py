"""The reader's editions: the definitions of crates/*/specs as two documents and a page. tools/definitions.py is the way in."""
from pathlib import Path

ROOT = Path(__file__).resolve().parent.parent.parent


class Fault(Exception):
    """What keeps an edition from being made, in a sentence for whoever runs the script."""


def shown(path):
    return str(path.relative_to(ROOT))
