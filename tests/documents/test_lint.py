"""The layout of the tests' code, and common mistakes in it."""
import subprocess

import pytest

from support import TOP


@pytest.mark.packages
def test_lint():
    ran = subprocess.run(["make", "-s", "lint"], cwd=TOP, capture_output=True, text=True)
    assert ran.returncode == 0, ran.stdout + ran.stderr
