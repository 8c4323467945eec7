"""What README.md shows of `silvervole check` is what it says."""
from __future__ import annotations

import pytest

from .samples import ROOT, run


@pytest.mark.desk
def test_recording() -> None:
    """tools/recording would write nothing else."""
    assert run(ROOT / "tools" / "recording", "--check") == (0, "", "")
