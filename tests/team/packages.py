"""Which Debian packages the tests need, and which of them aren't there."""
from __future__ import annotations

import importlib.util
import os
import shutil

import pytest

from silvervole.collect.browser import CHROMIUM_NAMES, DRIVER_NAMES

# Debian keeps servers in folders that not everybody's path has.
os.environ["PATH"] += ":/usr/sbin:/sbin"

PROXY = ("nginx", "openssl", "apache2-utils")
BROWSER = ("chromium", "chromium-driver", "python3-selenium")
# The programs of each package, of which one is enough, and its module of Python.
PROGRAMS = {"nginx": ("nginx",), "openssl": ("openssl",), "apache2-utils": ("htpasswd",), "haproxy": ("haproxy",),
            "systemd": ("systemd-analyze",), "systemd-container": ("systemd-nspawn",), "parallel": ("parallel",), "curl": ("curl",),
            "chromium": CHROMIUM_NAMES, "chromium-driver": DRIVER_NAMES}
MODULES = {"python3-selenium": "selenium"}


def needs(*packages: str) -> list[pytest.MarkDecorator]:
    """The marks of tests that need the built program and these packages."""
    return [pytest.mark.desk, pytest.mark.packages(*packages)]


def is_there(package: str) -> bool:
    """Whether a program of the package, or its module, is there."""
    if package in MODULES:
        return importlib.util.find_spec(MODULES[package]) is not None
    return any(map(shutil.which, PROGRAMS[package]))


def missing(packages: tuple[str, ...]) -> list[str]:
    """Those of the packages that aren't there."""
    return [package for package in packages if not is_there(package)]
