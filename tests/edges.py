#!/usr/bin/env python3
"""The bench program and the independent program (model/) on the texts of edges/, every byte equal.

edges.py    `edges: N texts, E events agree`, or what differs and exit status 1

Each text goes from power-up to a limit that the random scripts seldom meet, and tells a wrong change there (mutation/outside.py); its head says
which.
"""
import pathlib
import sys
import tempfile

TESTS = pathlib.Path(__file__).resolve().parent
sys.path.insert(0, str(TESTS / "model"))
from pair import RECORD, built_model, difference, joined  # noqa: E402


def main():
    texts = sorted((TESTS / "edges").glob("*.txt"))
    if not texts:
        sys.exit("edges: no text in tests/edges")
    with tempfile.TemporaryDirectory() as folder:
        work = pathlib.Path(folder)
        script = joined(texts)
        found = difference(built_model(work), script)
    if found:
        sys.exit(f"edges: the programs differ\n{found}")
    print(f"edges: {len(texts)} texts, {len(script) // RECORD} events agree")


if __name__ == "__main__":
    main()
