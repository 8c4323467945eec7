"""Runs of the programs that judge pages and play scripts with each allocation failing in turn, for tools/fail-allocations.

Each file of `data/` is a run of its own, by the program that `rt ci` built. Only those are done that end within
QUICK seconds where memory is ample: a run goes on to its end once for each allocation.
"""
import os
import re
import subprocess
import time

from serving import ROOT

QUICK = 0.02
# What a program prints of an expectation or a case that doesn't hold for want of memory.
PAGES = re.compile(rb"\S+: expected .*, got out of memory|\S+: out of memory")
SCRIPTS = re.compile(rb"\S+: no memory|\S+: .*: due .* came .*(507 Insufficient Storage|status 8|no memory).*")
SUMS = re.compile(rb"\d+ passed, (\d+) failed")


def folder_of(crate):
    return os.path.join(ROOT, "crates", crate, "data")


def program_of(crate):
    return os.path.join(ROOT, "crates", crate, "out", crate)


def pages():
    """The files of pages."""
    return sorted(name for name in os.listdir(folder_of("test_pages")) if name.endswith(".pages"))


def scripts():
    """The scripts that are played."""
    with open(os.path.join(folder_of("test_scripts"), "scripts"), encoding="utf-8") as names:
        return names.read().split()


KINDS = (("test_pages", pages, PAGES), ("test_scripts", scripts, SCRIPTS))


def wants_memory(form):
    """Whether an end says of each expectation that fails that memory is wanted, in lines of this form, or of the whole run."""
    def says(end):
        if not end.out:
            return end.status != 0 and b"memory" in end.err.lower()
        lines = end.out.splitlines()
        sums = SUMS.fullmatch(lines[-1])
        return sums is not None and int(sums[1]) == len(lines) - 1 > 0 and all(map(form.fullmatch, lines[:-1]))
    return says


def is_quick(crate, name):
    begun = time.monotonic()
    subprocess.run((program_of(crate), name), cwd=folder_of(crate), capture_output=True, check=False)
    return time.monotonic() - begun <= QUICK


def is_whole(end):
    """Whether all holds."""
    return end.status == 0 and end.out.endswith(b" passed, 0 failed\n") and not end.err


def runs():
    """Each quick file: the name of its run, the command, the folder that it runs in, and what an end without memory says."""
    for crate, names, form in KINDS:
        for name in names():
            if is_quick(crate, name):
                yield f"{crate} {name}", (program_of(crate), name), folder_of(crate), wants_memory(form)


def missing():
    """The programs that aren't built."""
    return [path for path in (program_of(crate) for crate, _, _ in KINDS) if not os.access(path, os.X_OK)]
