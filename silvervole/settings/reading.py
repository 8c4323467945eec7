"""Reads silvervole.toml: what check does where the command line doesn't say otherwise."""
from __future__ import annotations

import argparse
import os
from dataclasses import dataclass, field
from typing import Any, Callable, Collection, Iterable, Mapping

from silvervole.books import BOOKS
from silvervole.collect.ends import End, Stop
from silvervole.collect.options import LONGEST_SETTLE, MOST_JOBS, seconds, viewport, whole
from silvervole.collect.places import check_written

FILE = "silvervole.toml"
MOST_BUDGET = 999_999_999


@dataclass(frozen=True)
class PageSetting:
    """A page of the settings: what is opened, the address to write as its own, and the steps that lead to its states."""

    page: str
    url: str | None
    states: str | None


@dataclass(frozen=True)
class Settings:
    """What a file says: values by the names of check's options, and pages."""

    path: str = ""
    values: dict[str, Any] = field(default_factory=dict)
    pages: tuple[PageSetting, ...] = ()


NO_SETTINGS = Settings()


class Wrong(Exception):
    """Why a value of the settings isn't one."""


# Takes a value of the file, and the file's folder.
Reader = Callable[[Any, str], Any]


def text(value: Any, folder: str) -> str:
    """A text that isn't empty."""
    if not isinstance(value, str) or not value.strip():
        raise Wrong("it is a text")
    return value


def path(value: Any, folder: str) -> str:
    """A path, from the folder of the settings."""
    return os.path.normpath(os.path.join(folder, text(value, folder)))


def flag(value: Any, folder: str) -> bool:
    """True or false."""
    if not isinstance(value, bool):
        raise Wrong("it is true or false")
    return value


def book(value: Any, folder: str) -> str:
    """The name of a book of rules."""
    if value not in tuple(BOOKS):
        raise Wrong(f"it is {' or '.join(BOOKS)}")
    return str(value)


def command(value: Any, folder: str) -> list[str]:
    """A command, as a list of its words."""
    if not isinstance(value, list) or not value or not all(isinstance(word, str) for word in value):
        raise Wrong('it is a list of words, as ["./sign-in.sh", "--quiet"]')
    return value


def as_option(read: Callable[[str], Any]) -> Reader:
    """The reader of a number or a text that an option of the command line takes too."""
    def reader(value: Any, folder: str) -> Any:
        if isinstance(value, bool) or not isinstance(value, (int, float, str)):
            raise Wrong("it is a number or a text")
        try:
            return read(str(value))
        except argparse.ArgumentTypeError as error:
            raise Wrong(str(error)) from None

    return reader


# By the key in the file: the option of check that it stands for, and what reads it.
KEYS: Mapping[str, Mapping[str, tuple[str, Reader]]] = {
    "": {"list": ("list", path), "jobs": ("jobs", as_option(whole(1, MOST_JOBS))), "frames": ("frames", flag), "shadow": ("shadow", flag),
         "shots": ("shots", flag), "exact": ("exact", flag), "viewport": ("viewport", as_option(viewport)),
         "budget": ("budget", as_option(whole(0, MOST_BUDGET))), "accepted": ("accepted", path), "out": ("out", path), "book": ("book", book)},
    "waiting": {"for": ("wait", text), "timeout": ("timeout", as_option(seconds)), "settle": ("settle", as_option(whole(0, LONGEST_SETTLE)))},
    "sign-in": {"command": ("sign_in", command)},
}
PAGE_KEYS = {"address", "file", "states"}


def read_settings(path: str, options: Collection[str], formats: Collection[str]) -> Settings:
    """The settings of a file for a command with these options, of which some write formats; a Stop says what is wrong with it."""
    try:
        with open(path, "rb") as file:
            data = file.read()
    except OSError as error:
        raise Stop(End.USAGE, f"{path}: it can't be read: {error.strerror}") from None
    return settings_in(data, path, options, formats)


def settings_in(data: bytes, path: str, options: Collection[str], formats: Collection[str]) -> Settings:
    """The settings that the bytes of a file hold."""
    def refuse(why: str) -> Stop:
        return Stop(End.USAGE, f"{path}: {why}")

    import tomllib  # only here, since it loads slowly

    try:
        given = tomllib.loads(data.decode("utf-8"))
    except (tomllib.TOMLDecodeError, UnicodeDecodeError) as error:
        raise refuse(f"it isn't TOML: {error}") from None
    folder = os.path.dirname(path)
    try:
        return Settings(path, values_of(given, folder, known_keys(options, formats)), pages_of(given.get("page", []), folder))
    except Wrong as wrong:
        raise refuse(str(wrong)) from None


def known_keys(options: Collection[str], formats: Collection[str]) -> dict[str, dict[str, tuple[str, Reader]]]:
    """The keys of each table that stand for an option which the command has."""
    known = {table: {key: row for key, row in keys.items() if row[0] in options} for table, keys in KEYS.items()}
    return {**known, "formats": {name: (name, path) for name in formats}}


def values_of(given: dict[str, Any], folder: str, known: Mapping[str, Mapping[str, tuple[str, Reader]]]) -> dict[str, Any]:
    """The values by the names of options; Wrong where a key is unknown or a value isn't one."""
    values = {}
    for table, keys in known.items():
        inside = given if table == "" else given.get(table, {})
        if not isinstance(inside, dict):
            raise Wrong(f"[{table}] is a table")
        tables = {*known, "page"} - {""} if table == "" else set()
        for key, value in inside.items():
            if key in tables:
                continue
            if key not in keys:
                raise Wrong(unknown(key, table, [*keys, *tables]))
            option, read = keys[key]
            try:
                values[option] = read(value, folder)
            except Wrong as wrong:
                raise Wrong(f"{named(key, table)}: {wrong}") from None
    return values


def named(key: str, table: str) -> str:
    """A key as people name it."""
    return f"{key} of [{table}]" if table else key


def unknown(key: str, table: str, keys: Iterable[str]) -> str:
    """The refusal of a key that nothing has, with the one that may be meant."""
    import difflib  # only here, since it loads slowly
    near = difflib.get_close_matches(key, list(keys), 1)
    return f"{named(key, table)} is no setting" + (f"; is {near[0]} meant?" if near else f": there are {', '.join(sorted(keys))}")


def pages_of(given: Any, folder: str) -> tuple[PageSetting, ...]:
    """The pages of the tables [[page]]; Wrong where one isn't a page."""
    if not isinstance(given, list):
        raise Wrong("each page is a table [[page]]")
    return tuple(page_of(page, number, folder) for number, page in enumerate(given, 1))


def page_of(given: Any, number: int, folder: str) -> PageSetting:
    """A page: its address, or its file and the address to write; and the file of its steps."""
    what = f"page {number}"
    if not isinstance(given, dict):
        raise Wrong(f"{what} is a table [[page]]")
    for key in given:
        if key not in PAGE_KEYS:
            raise Wrong(f"{what}: {unknown(key, '', PAGE_KEYS)}")
    if not {"address", "file"} & set(given):
        raise Wrong(f"{what} has neither an address nor a file")
    try:
        address = text(given["address"], folder) if "address" in given else None
        states = path(given["states"], folder) if "states" in given else None
        if "file" in given:
            return PageSetting(path(given["file"], folder), check_written(address) if address else None, states)
    except Wrong as wrong:
        raise Wrong(f"{what}: {wrong}") from None
    except Stop as stop:
        raise Wrong(f"{what}: {stop.line}") from None
    return PageSetting(address or "", None, states)
