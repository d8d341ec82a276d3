"""Proves and builds, and shows how far that is: building.py program NAME.. lays target/bin/NAME, and building.py staticlib NAME lays
target/staticlib/libNAME.a, whose functions for C are those of the crate NAME_c. The exit status is 0 only where all was proved and
built."""
import re
import shutil
import subprocess
import sys
import time
from pathlib import Path

ROOT = Path(__file__).resolve().parents[1]
PROGRAMS = ROOT / "target/bin"
LOG = ROOT / "target/log/build.log"


def rooms_below(crates):
    """the crates and all rooms that they stand on, by crates.txt"""
    uses = {}
    for line in (ROOT / "crates.txt").read_text().splitlines():
        name, colon, rest = line.split("#")[0].partition(":")
        if colon:
            uses[name.split()[0]] = rest.split()
    below, waiting = set(), list(crates)
    while waiting:
        name = waiting.pop()
        if name in uses and name not in below:
            below.add(name)
            waiting += uses[name]
    return below


def minutes(seconds):
    return f"{int(seconds) // 60} min {int(seconds) % 60:02} s"


def show(line, last=False):
    """a line of progress, which on a terminal takes the place of the one before"""
    if sys.stdout.isatty():
        print(f"\r{line:<100}", end="\n" if last else "", flush=True)
    else:
        print(line, flush=True)


# What is made, by the way: the crate and rt's word for it, the file that rt writes, and where it is laid.
WAYS = {
    "program": ("{0}", "run", "out/{0}", "target/bin/{0}"),
    "staticlib": ("{0}_c", "lib", "out/lib{0}_c.a", "target/staticlib/lib{0}.a"),
}


def asked(way, name):
    return [word.format(name) for word in WAYS[way]]


def lay(way, name):
    crate, _, file, to = asked(way, name)
    to = ROOT / to
    to.parent.mkdir(parents=True, exist_ok=True)
    # In two steps: a test may be running the program that stands there.
    beside = to.with_name(to.name + ".new")
    shutil.copy(ROOT / "crates" / crate / file, beside)
    beside.replace(to)


def prover(way, name):
    """rt at work on a crate; a program that it has built it also runs, on an empty input"""
    crate, word, _, _ = asked(way, name)
    how = {"stdin": subprocess.DEVNULL, "stdout": subprocess.PIPE, "stderr": subprocess.STDOUT}
    return subprocess.Popen(["rt", word], cwd=ROOT / "crates" / crate, text=True, errors="replace", **how)


def made(way, name):
    """proves and builds, with no word of progress; what the prover prints goes to standard error where it fails. Was it built?"""
    check = prover(way, name)
    said = check.communicate()[0]
    if check.returncode == 0:
        lay(way, name)
    else:
        sys.stderr.write(said)
    return check.returncode == 0


def built(way, names, log_path=LOG):
    """proves and builds, and shows how far that is; what the prover prints goes to a file"""
    log_path.parent.mkdir(parents=True, exist_ok=True)
    rooms = rooms_below([asked(way, name)[0] for name in names])
    print(f"Building {' and '.join(names)}: the {len(rooms)} rooms that this stands on are proved first.", flush=True)
    start, done, room = time.time(), set(), ""
    with open(log_path, "w") as log:
        for name in names:
            check = prover(way, name)
            for line in check.stdout:
                log.write(line)
                checked = re.match(r"crate (\w+): ", line)
                room = checked[1] if checked else room
                if line.startswith("logic=proved") and room in rooms - done:
                    # A room is proved after those that it stands on; of one that has not changed nothing is said.
                    done |= rooms_below([room])
                    show(f"  {len(done)} of {len(rooms)} rooms proved ({minutes(time.time() - start)}): {room}")
            if check.wait() != 0:
                show(f"  {len(done)} of {len(rooms)} rooms proved in {minutes(time.time() - start)}", last=True)
                return False
            lay(way, name)
    show(f"  {len(rooms)} of {len(rooms)} rooms proved in {minutes(time.time() - start)}", last=True)
    return True


def main():
    way, *names = sys.argv[1:]
    if not built(way, names):
        sys.exit(f"The build failed: see {LOG.relative_to(ROOT)}.")


if __name__ == "__main__":
    main()
