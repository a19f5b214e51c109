"""Tests of the gateway with the built program, its hub, and stores of made-up releases."""

import sys
from pathlib import Path

# For the SCTIDs of made-up releases.
sys.path.append(str(Path(__file__).resolve().parents[2] / "bench" / "measurements"))
