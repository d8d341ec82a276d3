"""./build and ./churawel in a copy of the tree, with a prover that only says what it is told to: how far the build is, that nothing
is built where something is not proved, and that what is missing on a machine is said."""
import os
import shutil
import subprocess

from desk import C, NATIVE, ROOT, Desk

COPIED = ["build", "churawel", "crates.txt", "include", "tool", "tests/native.sh"]
# Lays the archive that is there, as if it had been proved just now; status 1 where it is told that something is not proved.
PROVER = f"""#!/bin/sh
echo 'crate numbers: modules loaded=3 checked=3'
echo 'logic=proved functions=3'
echo 'crate text: modules loaded=3 checked=3'
echo 'logic=proved functions=3'
[ -e ../../not-proved ] && exit 1
mkdir -p out
cp '{ROOT}/target/staticlib/libchurawel.a' out/libchurawel_c.a
"""


def copy_tree(desk):
    for name in COPIED:
        to = desk.path(name)
        to.parent.mkdir(parents=True, exist_ok=True)
        (shutil.copytree if (ROOT / name).is_dir() else shutil.copy)(ROOT / name, to)
    desk.path("crates/churawel_c").mkdir(parents=True)


def path_without(desk, name, *missing):
    """a folder with every command of this machine but these, and the prover of these tests"""
    folder = desk.path(name)
    folder.mkdir()
    for place in os.environ["PATH"].split(":"):
        for command in os.scandir(place) if os.path.isdir(place) else []:
            if not (folder / command.name).is_symlink():
                (folder / command.name).symlink_to(command.path)
    (folder / "rt").unlink(missing_ok=True)
    (folder / "rt").write_text(PROVER)
    (folder / "rt").chmod(0o755)
    for command in missing:
        (folder / command).unlink(missing_ok=True)
    return str(folder)


def ran(desk, path, *words):
    """status, standard output, standard error of a program in the copy"""
    done = subprocess.run(words, cwd=desk.folder, capture_output=True, text=True, env={**desk.environment, "PATH": path})
    return done.returncode, done.stdout, done.stderr


def says(desk, what, path, words, status, said):
    ended, _, message = ran(desk, path, *words)
    desk.add(what, "" if ended == status and said in message else f"it ended with {ended} ({message!r})")


def missing(desk, all_there):
    says(desk, "build without rt", path_without(desk, "no-rt", "rt"), ["./build"], 1, "rt is missing")
    without = path_without(desk, "no-compiler", C)
    says(desk, "build without a compiler", without, ["./build"], 1, f"{C} is missing")
    says(desk, "./churawel that can't be built", without, ["./churawel", "--version"], 3, f"{C} is missing")
    desk.write("not-proved", b"")
    says(desk, "build where a room is not proved", all_there, ["./build"], 1, "The build failed: see target/log/build.log.")
    desk.same("nothing is built then", desk.path("target/bin/churawel").exists(), False)
    desk.path("not-proved").unlink()


def builds(desk, all_there):
    status, printed, said = ran(desk, all_there, "./build")
    lines = [at.split(" (")[0] for at in printed.splitlines()]
    rooms = lines[0].split()[3] if lines else ""
    expected = [f"Building churawel: the {rooms} rooms that this stands on are proved first.", f"  2 of {rooms} rooms proved"]
    desk.same("build shows how far it is", (status, said, lines[:2], lines[-1:]), (0, "", expected, ["Built: target/bin/churawel"]))
    status, printed, _ = ran(desk, all_there, "./build")
    again = "What the tool stands on was proved, and has not changed since."
    desk.same("build again", (status, printed.splitlines()[0]), (0, again))
    image = "a disk of mine.img"
    for words in (["./churawel", "new", image], [str(desk.path("churawel")), "check", str(desk.path(image))]):
        desk.same(f"{words[0][-10:]} {words[1]}, in a path with blanks", ran(desk, all_there, *words)[0], 0)
    os.utime(desk.path("tool/VERSION"))
    said = ran(desk, all_there, "./churawel", "--version")[2]
    desk.same("./churawel builds anew where a source has changed", said.splitlines()[-1], "Built: target/bin/churawel")
    desk.path("crates/changed").mkdir()
    said = ran(desk, all_there, "./churawel", "--version")[2]
    desk.same("./churawel proves anew where a room has changed", said.splitlines()[0], expected[0])
    if not NATIVE:
        without = path_without(desk, "no-emulator", "qemu-x86_64")
        says(desk, "./churawel without an emulator", without, ["./churawel", "--version"], 3, "qemu-x86_64 is missing")


def run(tally):
    desk = Desk(tally, "built here")
    copy_tree(desk)
    all_there = path_without(desk, "bin")
    missing(desk, all_there)
    builds(desk, all_there)
