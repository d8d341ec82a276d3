"""A desk for the tool's tests: a folder of its own, commands run in it, and what each must answer and leave."""
import os
import platform
import shutil
import subprocess
from pathlib import Path

ROOT = Path(__file__).resolve().parents[2]
PROGRAM = ROOT / "target/bin/churawel"
# The program is for x86-64; another processor emulates it, and Debian's cross compilers serve C and C++.
NATIVE = platform.machine() == "x86_64"
TOOL = [PROGRAM] if NATIVE else ["qemu-x86_64", PROGRAM]
C, CPP = ("gcc", "g++") if NATIVE else ("x86_64-linux-gnu-gcc", "x86_64-linux-gnu-g++")
SECONDS = 300


class Tally:
    """counts the cases and prints a line for each"""

    def __init__(self):
        self.passed = self.failed = 0

    def add(self, what, wrong):
        if wrong:
            self.failed += 1
            print(f"FAILED {what}: {wrong}", flush=True)
        else:
            self.passed += 1
            print(f"ok {what}", flush=True)


class Desk:
    def __init__(self, tally, name, geometry=None):
        self.tally, self.about = tally, name
        self.folder = ROOT / "target/tool/desk" / name
        shutil.rmtree(self.folder, ignore_errors=True)
        self.folder.mkdir(parents=True)
        self.environment = {k: v for k, v in os.environ.items() if k != "CHURAWEL_GEOMETRY"}
        if geometry:
            self.environment["CHURAWEL_GEOMETRY"] = ",".join(map(str, geometry))

    def path(self, name):
        return self.folder / name

    def write(self, name, content):
        self.path(name).write_bytes(content)

    def read(self, name):
        return self.path(name).read_bytes()

    def files(self):
        """every file in the folder: its bytes, its mode, and which file it is"""
        paths = [path for path in self.folder.iterdir() if path.is_file()]
        return {path.name: (path.read_bytes(), path.stat().st_mode, path.stat().st_ino) for path in paths}

    def run(self, *words, stdin=b"", before=(), environment=None, **more):
        """status, standard output, standard error"""
        ran = subprocess.run([*before, *TOOL, *words], cwd=self.folder, input=stdin, capture_output=True, timeout=SECONDS,
                             env={**self.environment, **(environment or {})}, **more)
        return ran.returncode, ran.stdout, ran.stderr

    def add(self, what, wrong):
        self.tally.add(f"{self.about}: {what}", wrong)

    def done(self, what, *words, out=None, **more):
        """a command that is done, and prints this"""
        status, printed, said = self.run(*words, **more)
        wrong = f"it ended with {status} ({said.decode()!r})" if status != 0 or said else ""
        if not wrong and out is not None and printed != out:
            wrong = f"it printed {printed!r} and not {out!r}"
        self.add(what, wrong)

    def leaves(self, what, status, *words, said="", out=b"", **more):
        """a command that ends with this status, says this on standard error, and leaves every file as it was"""
        before = self.files()
        ended, printed, message = self.run(*words, **more)
        wrong = ""
        if ended != status:
            wrong = f"it ended with {ended} and not {status} ({message.decode()!r})"
        elif said not in message.decode() or (said and not message.startswith(b"churawel: ")):
            wrong = f"it said {message.decode()!r} and not {said!r}"
        elif printed != out:
            wrong = f"it printed {printed!r}"
        elif self.files() != before:
            wrong = "it changed a file"
        self.add(what, wrong)

    def refused(self, what, *words, said, **more):
        self.leaves(what, 1, *words, said=said, **more)

    def wrong_use(self, what, *words, said, **more):
        self.leaves(what, 2, *words, said=said, **more)

    def same(self, what, found, expected):
        self.add(what, "" if found == expected else f"{found!r:.200} and not {expected!r:.200}")
