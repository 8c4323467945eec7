"""Builds the Python package by setuptools, for pip and for Debian's tools.

pip builds in an environment of its own, in which it hides Debian's packages and into which it fetches what
pyproject.toml requires. So nothing is required there: with Debian's Python, Debian's own setuptools is taken, and only
where that isn't installed is one asked for.
"""
from __future__ import annotations

import importlib.util
import sys
from typing import Any

DEBIAN = "/usr/lib/python3/dist-packages"
NEEDED = {"setuptools": "setuptools>=66", "wheel": "wheel"}


def is_there(module: str) -> bool:
    """Whether a module can be imported."""
    return importlib.util.find_spec(module) is not None


if sys.base_prefix == "/usr" and DEBIAN not in sys.path and not all(map(is_there, NEEDED)):
    sys.path.append(DEBIAN)


def required(config_settings: object = None) -> list[str]:
    """What pip has to fetch before it builds: nothing where all is there."""
    return [asked for module, asked in NEEDED.items() if not is_there(module)]


get_requires_for_build_wheel = get_requires_for_build_editable = get_requires_for_build_sdist = required


def __getattr__(name: str) -> Any:
    """All else is done by setuptools, which may be fetched only after it was asked for."""
    from setuptools import build_meta
    return getattr(build_meta, name)
