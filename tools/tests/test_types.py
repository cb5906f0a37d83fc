"""Types are said throughout, and hold."""
import shutil
import subprocess
import unittest

from kit import ROOT


def test_types() -> None:
    """mypy finds nothing in the scripts, the measurements and the editor, strictly."""
    if shutil.which("mypy") is None:
        raise unittest.SkipTest("mypy is not there")
    done = subprocess.run(["mypy"], cwd=ROOT, capture_output=True, text=True, timeout=600, check=False)
    assert done.returncode == 0, done.stdout + done.stderr
