"""Tests of the package; `python3 -m unittest` in the folder above runs them."""

import sys
from pathlib import Path

sys.path.insert(0, str(Path(__file__).resolve().parents[1] / "examples"))
