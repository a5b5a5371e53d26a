#!/usr/bin/env python3
"""Looks that each wrong program of an edit with several also stands alone in an edit, with the same changes (tools/split_edits.py).

In the edit with several all are in at once, and one can hide another from the prover; alone each must be refused by `rt ci`.
"""
import sys
from pathlib import Path

sys.dont_write_bytecode = True
sys.path.insert(0, str(Path(__file__).resolve().parent.parent / "tools"))
from split_edits import alone, differing, told

wanted, programs = alone()
places = differing(wanted)
for place in places:
    print(f"not alone with the same changes: {told(place)}")
print(f"{programs} wrong programs" + ("" if places else ", each alone in an edit"))
sys.exit(bool(places))
