#!/usr/bin/env python3
"""Writes the shells of shells.py, the proofs that walk the functions which are lent the segment list.

    tools/walks/generate.py            writes each file in its place
    tools/walks/generate.py --check    writes nothing, and fails if a file is not what would be written
    tools/walks/generate.py --root DIR     in another copy of the repository"""

import argparse
import pathlib
import sys

sys.dont_write_bytecode = True

from document import document  # noqa: E402
from shells import ALL  # noqa: E402


def main():
    parser = argparse.ArgumentParser(description=__doc__, formatter_class=argparse.RawDescriptionHelpFormatter)
    parser.add_argument("--check", action="store_true")
    parser.add_argument("--root", type=pathlib.Path, default=pathlib.Path(__file__).resolve().parents[2])
    options = parser.parse_args()
    stale = 0
    for shell in ALL:
        path = options.root / shell.file
        text = document(shell)
        if path.exists() and path.read_text() == text:
            continue
        if options.check:
            print(f"{shell.file} is not what tools/walks/generate.py writes")
            stale += 1
        else:
            path.write_text(text)
    return 1 if stale else 0


if __name__ == "__main__":
    sys.exit(main())
