"""The programs of bench/steps and bench/serving: how they are built, run, and what they tell.

They are no crates of the repository, since they promise nothing that the gate could hold them to. Each is
proved and built here, as a crate beside a copy of the others, where a source is newer than what was built last
or another kit built it. That takes some minutes. So is the crate of bench/sites, which serving stands on.
"""
import glob
import os
import shutil
import subprocess
import sys
import tempfile

HERE = os.path.dirname(os.path.abspath(__file__))
ROOT = os.path.dirname(HERE)


def kit():
    """The line of the kit that is at hand."""
    return subprocess.run(["rt", "version"], capture_output=True, text=True, check=True).stdout


def steps_in(lines):
    """The steps of the lines `STEP NUMBER us`."""
    for line in lines:
        step, micros, _ = [*line.rsplit(" ", 2), "", ""][:3]
        if micros.isdigit():
            yield step, int(micros)


def least(told):
    """The least time of each step in what some runs told."""
    found: dict[str, int] = {}
    for run in told:
        for step, micros in run:
            found[step] = min(found.get(step, micros), micros)
    return found


# The crate that stands only here, and those that it stands on.
SITES = "fixture_sites"
SITES_OVER = "snap_tree fixture_pages snap_edit web_address rule_core judge_core keep_core desk_core"


def copy_sites(crates):
    """Makes the crate of bench/sites in a folder of crates."""
    for path in glob.glob(f"{HERE}/sites/**/*.in", recursive=True):
        to = f"{crates}/{SITES}/{os.path.relpath(path, f'{HERE}/sites').removesuffix('.in')}"
        os.makedirs(os.path.dirname(to), exist_ok=True)
        shutil.copy(path, to)


class Program:
    """A program that measures, by its name and the crates that it stands on; its sources are files `NAME.rt.in`."""

    def __init__(self, name, crates, sources):
        self.name = name
        self.crates = crates
        self.sources = sorted(path for pattern in sources for path in glob.glob(f"{HERE}/{pattern}"))
        self.path = f"{HERE}/out/{name}"
        self.kit_path = f"{self.path}.kit"

    def is_built(self):
        """Whether this kit built the program, after all that it is made of was last written."""
        if not os.path.exists(self.path) or not os.path.exists(self.kit_path):
            return False
        with open(self.kit_path) as file:
            built_by = file.read()
        sources = [*self.sources, *glob.glob(f"{HERE}/sites/**", recursive=True), *glob.glob(f"{ROOT}/crates/*/src/**", recursive=True)]
        return built_by == kit() and os.path.getmtime(self.path) > max(map(os.path.getmtime, sources))

    def build(self):
        """Proves and builds the program in a copy of the crates."""
        with tempfile.TemporaryDirectory(prefix="desk-bench-") as copy:
            shutil.copytree(f"{ROOT}/crates", f"{copy}/crates", ignore=shutil.ignore_patterns("out"))
            shutil.copy(f"{ROOT}/HANDLES", copy)
            with open(f"{ROOT}/crates.txt") as listed, open(f"{copy}/crates.txt", "w") as to:
                to.write(f"{listed.read()}{SITES}: {SITES_OVER}\n{self.name}: {self.crates}\n")
            copy_sites(f"{copy}/crates")
            crate = f"{copy}/crates/{self.name}"
            os.makedirs(f"{crate}/src")
            for source in self.sources:
                shutil.copy(source, f"{crate}/src/{os.path.basename(source).removesuffix('.in')}")
            with open(f"{ROOT}/examples/smallest.json") as page:
                if subprocess.run(["rt", "run"], cwd=crate, stdin=page, stdout=sys.stderr).returncode:
                    sys.exit(f"{self.name} isn't proved, or doesn't run")
            self.keep(f"{crate}/out/{self.name}")

    def keep(self, built):
        """Keeps a program that was built, and which kit built it."""
        os.makedirs(os.path.dirname(self.path), exist_ok=True)
        shutil.copy(built, self.path)
        with open(self.kit_path, "w") as file:
            file.write(kit())

    def make(self):
        """Builds the program where it isn't built."""
        if not self.is_built():
            self.build()

    def start(self, page):
        """Starts the program on the snapshot of a file."""
        with open(page, "rb") as stdin:
            return subprocess.Popen([self.path], stdin=stdin, stdout=subprocess.PIPE, stderr=subprocess.PIPE)

    def steps_of(self, code, told, enough):
        """Each step that a run told, with its time in microseconds. A run that stopped ends the script with its
        own line, unless it told the step that is enough."""
        lines = told.decode().splitlines()
        steps = list(steps_in(lines))
        if code and enough not in (step for step, _ in steps):
            sys.exit(f"{self.name} ended with {code}: {lines[-1] if lines else 'it said nothing'}")
        return steps

    def at_once(self, page, copies, enough=None):
        """What each of so many copies of the program says which run at once on a file, and the steps that it told."""
        running = [self.start(page) for _ in range(copies)]
        heard = [each.communicate() for each in running]
        return [(said.decode().strip(), self.steps_of(each.returncode, told, enough))
                for each, (said, told) in zip(running, heard)]

    def least_times(self, runs, made, enough=None):
        """What the program says of a snapshot, and the least time of each step in so many runs."""
        with tempfile.NamedTemporaryFile(suffix=".json") as file:
            file.write(made)
            file.flush()
            ran = [self.at_once(file.name, 1, enough)[0] for _ in range(runs)]
        return ran[-1][0], least(steps for _, steps in ran)


STEPS = Program("desk_bench", "snap_tree snap_json snap_edit aria_tables acc_tree acc_name rule_core rule_sights "
                "rules_tables rule_book judge_core audit reaudit", ["steps/*.rt.in"])
SERVING = Program("desk_serving", "snap_tree fixture_pages snap_json rule_core rule_book keep_core desk_core "
                  "fixture_sites", ["serving/*.rt.in", "steps/clock.rt.in"])
