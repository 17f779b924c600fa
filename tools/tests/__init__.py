"""The text tools' unit tests, which need no program: `cd tools && python3 -m unittest`."""

from pathlib import Path

TOP = Path(__file__).resolve().parent.parent.parent
