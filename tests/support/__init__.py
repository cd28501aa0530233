"""What the tests share: second readings of the formats, models that draw cases, and what runs the built programs."""
from pathlib import Path

TESTS = Path(__file__).resolve().parent.parent
TOP = TESTS.parent
EXAMPLES = TOP / "examples"
