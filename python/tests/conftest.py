"""The package is tested over the library that LIBVICINITY names, or that of this clone,
which is built first."""
import os
import subprocess
from pathlib import Path

import pytest

TOP = Path(__file__).resolve().parent.parent.parent


@pytest.fixture(scope="session", autouse=True)
def _library():
    if "LIBVICINITY" not in os.environ:
        subprocess.run(["make", "-sj2", "-C", TOP, "release"], check=True)
        os.environ["LIBVICINITY"] = str(TOP / "out/release/libvicinity.so")
    os.environ.update(PYTHONPATH=str(TOP / "python"), PYTHONDONTWRITEBYTECODE="1")
