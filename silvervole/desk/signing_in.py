"""The name and the password by which a command signs in at the desk's proxy; never from its words, which others can list."""
from __future__ import annotations

import netrc
import os
import pathlib

from silvervole.collect.ends import End, Stop

NAME, PASSWORD = "SILVERVOLE_NAME", "SILVERVOLE_PASSWORD"
SOURCES = f"--key FILE, the variables {NAME} and {PASSWORD}, or .netrc"


def sign_in(host: str, file: str | None) -> tuple[str, str] | None:
    """The name and the password for a host: those of the file, else of the environment, else of .netrc; None where there are none."""
    if file is not None:
        return from_file(file)
    if os.environ.get(NAME):
        return os.environ[NAME], os.environ.get(PASSWORD, "")
    return from_netrc(host)


def from_file(path: str) -> tuple[str, str]:
    """What a file says on its first line, as NAME:PASSWORD."""
    try:
        lines = pathlib.Path(path).read_text(encoding="utf-8").splitlines()
    except OSError as error:
        raise Stop(End.USAGE, f"--key {path} can't be read: {error.strerror}") from None
    except UnicodeDecodeError:
        raise Stop(End.USAGE, f"--key {path} isn't in UTF-8") from None
    name, colon, password = (lines or [""])[0].partition(":")
    if not name or not colon:
        raise Stop(End.USAGE, f"--key {path} has no NAME:PASSWORD on its first line")
    return name, password


def from_netrc(host: str) -> tuple[str, str] | None:
    """What the file of the variable NETRC, or .netrc in the home folder, says of a host."""
    path = os.environ.get("NETRC") or os.path.expanduser("~/.netrc")
    if not os.path.exists(path):
        return None
    try:
        found = netrc.netrc(path).authenticators(host)
    except netrc.NetrcParseError as error:
        raise Stop(End.USAGE, f"{path}, line {error.lineno}: {error.msg}") from None
    except (OSError, UnicodeDecodeError) as error:
        raise Stop(End.USAGE, f"{path} can't be read: {getattr(error, 'strerror', None) or 'it is no text'}") from None
    return (found[0], found[2] or "") if found else None
