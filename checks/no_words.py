"""Whoever imports this takes no words: --help prints the docstring of the program, with status 0; others are refused with 2.
It also ends quietly when its reader has gone (tools/ends_quietly.py)."""
import pathlib
import sys

import __main__

sys.path.append(str(pathlib.Path(__file__).resolve().parents[1] / "tools"))
import ends_quietly  # when its reader has gone

if sys.argv[1:] == ["--help"]:
    print(__main__.__doc__.strip())
    sys.exit(0)
if sys.argv[1:]:
    print(f"usage: {sys.argv[0]}", file=sys.stderr)
    sys.exit(2)
