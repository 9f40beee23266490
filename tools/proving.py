"""What tools/mutate checks its changes on: the crates as crates.txt lists them, and a bench, which is a place where a changed crate is
checked over what `rt lib` or `rt ci` proved of those below it, and over what `rt check` kept of the crate, so that only what the change
touches is proved again."""
import os
import pathlib
import resource
import shutil
import subprocess

ROOT = pathlib.Path(__file__).resolve().parent.parent
CRATES = ROOT / "crates"
WORKERS = int(os.environ.get("RT_JOBS", 0)) or min(os.cpu_count() or 1, 4)


def kit():
    """The kit's folder, from the path of `rt` itself."""
    return pathlib.Path(shutil.which("rt")).resolve().parent.parent


def weight(name):
    """About how long a crate takes: its text."""
    return sum(page.stat().st_size for page in (CRATES / name).rglob("*") if page.is_file() and "out" not in page.relative_to(CRATES / name).parts)


def dependencies():
    """Each crate's own dependencies, as crates.txt lists them."""
    lines = (line.split("#")[0].partition(":") for line in (ROOT / "crates.txt").read_text().splitlines())
    return {name.split()[0]: needs.split() for name, colon, needs in lines if colon}


def stands_on(name, listed):
    """A crate and all that it stands on in this repository."""
    found, left = set(), [name]
    while left:
        one = left.pop()
        if one in listed and one not in found:
            found.add(one)
            left += listed[one]
    return found


def library(name):
    return CRATES / name / "out" / "rlib" / f"{name}.rlib"


def is_proved(name):
    """Whether `rt lib`, a check of a crate above it, or `rt ci` left its library; which text that was of is not asked."""
    return (library(name) / "format").is_file()


class Bench:
    """A place in which crates are changed and checked. All crates share one incremental folder."""

    def __init__(self, place, seconds=None):
        self.place, self.seconds, self.laid = place, seconds, set()
        self.pool = place / "pool"
        (place / "crates").mkdir(parents=True)
        self.pool.mkdir()

    def renew(self, name):
        """The crate as it stands, in a folder of its own."""
        own = self.place / "crates" / name
        shutil.rmtree(own, ignore_errors=True)
        shutil.copytree(CRATES / name, own, ignore=shutil.ignore_patterns("out"))
        return own

    def lay_out(self, name):
        """What a check kept of the crate, where an incremental check looks for it, and its text where there is none yet."""
        if not (self.place / "crates" / name).exists():
            self.renew(name)
        self.laid.add(name)
        self.put(name)

    def put(self, name):
        """The crate's kept modules, by links: a check replaces such a file, and changes none."""
        kept = CRATES / name / "out" / "incremental"
        for module in kept.rglob("*"):
            there = self.pool / module.relative_to(kept)
            if module.is_dir():
                there.mkdir(parents=True, exist_ok=True)
            elif not there.exists() or not there.samefile(module):
                there.unlink(missing_ok=True)
                os.link(module, there)

    def restore(self):
        """All that was laid out, as it was before any change."""
        for name in self.laid:
            self.put(name)

    def prove(self, name, needs, words=()):
        """The exit status of a check over the libraries that it needs, and what it said. A check that takes longer than the bench's seconds of
        the processor is ended."""
        home, listed = kit(), dependencies()
        command = [home / "bin/rattle", "check", "--crate-name", name, "src/lib.rt", "--extern", f"std={home}/rlibs/std.rlib", "-L", f"dependency={home}/rlibs"]
        command += [word for need in needs for word in ("--extern", f"{need}={library(need)}")]
        below = {one for need in needs for one in stands_on(need, listed)}
        command += [word for one in sorted(below) for word in ("-L", f"dependency={library(one).parent}")]
        command += ["--antt-project", home / "rattle/logic/antt-project.json", "--logic-built", home / "logic_built", "--jobs", "1", "--incremental", self.pool, *words]
        limit = self.seconds and (lambda: resource.setrlimit(resource.RLIMIT_CPU, (self.seconds, self.seconds)))
        ran = subprocess.run(command, cwd=self.place / "crates" / name, capture_output=True, text=True, preexec_fn=limit)
        return ran.returncode, ran.stdout + ran.stderr

    def forget(self, name):
        """Nothing stays of the crate, or of what was proved."""
        shutil.rmtree(self.place / "crates")
        shutil.rmtree(self.pool)
        (self.place / "crates").mkdir()
        self.pool.mkdir()
        self.laid = set()
