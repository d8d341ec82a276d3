"""Nothing is lost: the tool is killed before each system call of a run, each call on files fails in turn, two commands change one
image at once. strace does this to the tool; each time the old image or the new one must be there, whole."""
import re
import shutil
import subprocess
import time

from desk import SECONDS, TOOL, Desk
from disk import entry, entries_of, volume

V = (1024, 40, 1)
# Calls on files, by all their names; only these are made to fail, since an emulator needs its own.
ON_FILES = set("open openat fstat newfstatat stat statx access faccessat faccessat2 read write flock fchmod fchown fsync "
               "rename renameat renameat2 link linkat unlink unlinkat".split())

# What is run, and the file that it replaces or makes.
RUNS = [
    (["put", "--replace", "V.IMG", "in", "a.txt"], "V.IMG"),
    (["erase", "V.IMG", "a.txt"], "V.IMG"),
    (["rename", "V.IMG", "a.txt", "c.txt"], "V.IMG"),
    (["attributes", "V.IMG", "a.txt", "+r"], "V.IMG"),
    (["new", "N.IMG"], "N.IMG"),
    (["fresh", "V.IMG", "N.IMG"], "N.IMG"),
    (["get", "--replace", "V.IMG", "a.txt", "out"], "out"),
    (["gencmd", "--replace", "tool.hex", "out"], "out"),
]


def lay(desk):
    """the folder as it is before each run"""
    for path in desk.folder.iterdir():
        path.unlink()
    image = volume(V, {0: entry(name="A.TXT", rc=1, blocks=[1]), 1: entry(name="B.TXT", rc=2, blocks=[2])})
    desk.write("V.IMG", image)
    desk.path("V.IMG").chmod(0o640)
    desk.write("in", bytes(range(256)) * 20)
    desk.write("out", b"old")
    desk.write("tool.hex", b":0300050011223392\n:00000001FF\n")


def traced(desk, words, *faults):
    """a run under strace: its status, and the lines of its calls"""
    log = desk.folder.parent / "calls"
    options = [word for fault in faults for word in ("-e", f"inject={fault}")]
    command = ["strace", "-o", log, *options, *TOOL, *words]
    ran = subprocess.run(command, cwd=desk.folder, env=desk.environment, capture_output=True, timeout=SECONDS)
    lines = log.read_text(errors="replace").splitlines()
    return ran.returncode, lines


def calls_of(lines, words):
    """each call as its name and which of that name it is, from the first on in which a file of the command stands; before it
    no file can change"""
    seen, calls, begun = {}, [], False
    for at in lines:
        name = re.match(r"(\w+)\(", at)
        if not name:
            continue
        seen[name[1]] = seen.get(name[1], 0) + 1
        begun = begun or (name[1] != "execve" and (".churawel-" in at or any(f'{word}"' in at for word in words)))
        if begun:
            calls.append((name[1], seen[name[1]], at))
    return calls


def state(desk, name):
    """the file's bytes and mode, or nothing; and all else in the folder that was not there"""
    path = desk.path(name)
    there = (path.read_bytes(), path.stat().st_mode) if path.exists() else None
    others = sorted(p.name for p in desk.folder.iterdir() if p.name not in ("V.IMG", "in", "out", "tool.hex", name))
    return there, others


def killed(desk, words, name, old, new, calls):
    """killed before each call: the old file or the new, both seen; nothing left but a file of the tool's own name"""
    what, found = " ".join(words), {"old": 0, "new": 0}
    for call, which, _ in calls:
        lay(desk)
        traced(desk, words, f"{call}:signal=SIGKILL:when={which}")
        there, others = state(desk, name)
        if there not in (old, new) or any(not other.startswith(".churawel-") for other in others):
            desk.add(f"{what}, killed before {call} {which}", f"it left {others} and neither the old file nor the new")
        found["old" if there == old else "new"] += 1
        status = desk.run(*words)[0] if there == old else 0
        if status != 0 or state(desk, name)[0] != new:
            desk.add(f"{what}, killed before {call} {which}", "it can't be run again")
    what = f"{what}, killed before each of {len(calls)} calls: {found['old']} times the old, {found['new']} the new"
    desk.add(what, "one was never seen" if min(found.values()) == 0 else "")


def failing(desk, words, name, old, new, calls):
    """each call fails: done with the new file, or refused with the old"""
    what, found = " ".join(words), {0: 0, 1: 0}
    tried = [(call, which) for call, which, at in calls if call in ON_FILES and not at.startswith(("write(1,", "write(2,"))]
    for call, which in tried:
        lay(desk)
        status, _ = traced(desk, words, f"{call}:error=EIO:when={which}")
        there, others = state(desk, name)
        left = [other for other in others if not call.startswith("unlink")]
        if status not in (0, 1) or there != (new if status == 0 else old) or left:
            wrong = f"it ended with {status} and left {others}, old {there == old}, new {there == new}"
            desk.add(f"{what}, failing {call} {which}", wrong)
        else:
            found[status] += 1
    desk.add(f"{what}, each of {len(tried)} calls failing: {found[1]} times refused", "too few" if found[1] < 3 else "")


def signalled(desk, words, name, new):
    """a person's signal while the new file is written waits until that is done"""
    for signal in ("SIGINT", "SIGTERM", "SIGHUP"):
        lay(desk)
        status, _ = traced(desk, words, f"fsync:signal={signal}:when=1")
        desk.same(f"{' '.join(words)}, {signal} while it writes", (status, *state(desk, name)), (0, new, []))


def started(desk, words, fault):
    """a command that runs on while another does"""
    command = ["strace", "-o", "/dev/null", "-e", f"inject={fault}", *TOOL, *words]
    return subprocess.Popen(command, cwd=desk.folder, env=desk.environment, stdout=subprocess.DEVNULL, stderr=subprocess.DEVNULL)


def two_at_once(desk):
    lay(desk)
    first = started(desk, ["rename", "V.IMG", "a.txt", "c.txt"], "fsync:delay_enter=2000000:when=1")
    time.sleep(1)
    desk.leaves_image("the second of two changes", "V.IMG", "rename", "V.IMG", "b.txt", "d.txt")
    desk.done("a list meanwhile", "list", "V.IMG")
    desk.same("the first of two changes is done", first.wait(SECONDS), 0)
    desk.done("the second, asked again", "rename", "V.IMG", "b.txt", "d.txt")
    image = desk.read("V.IMG")
    desk.same("both changes are there", [len(entries_of(image, V, 0, name)) for name in ("C.TXT", "D.TXT")], [1, 1])
    lay(desk)
    late = started(desk, ["rename", "V.IMG", "b.txt", "d.txt"], "flock:delay_enter=2000000:when=1")
    time.sleep(1)
    desk.done("a change while another has opened the image and not yet locked it", "rename", "V.IMG", "a.txt", "c.txt")
    desk.same("the other is done too", late.wait(SECONDS), 0)
    image = desk.read("V.IMG")
    desk.same("both changes are there then", [len(entries_of(image, V, 0, name)) for name in ("C.TXT", "D.TXT")], [1, 1])
    lay(desk)
    making = started(desk, ["new", "N.IMG"], "fsync:delay_enter=2000000:when=1")
    time.sleep(1)
    desk.done("new while another makes the same", "new", "N.IMG")
    desk.same("the other is refused", making.wait(SECONDS), 1)


def links(desk):
    lay(desk)
    desk.path("link").symlink_to("V.IMG")
    desk.done("a change by a symbolic link", "rename", "link", "a.txt", "c.txt")
    desk.same("the link stays one", (desk.path("link").is_symlink(), desk.path("V.IMG").is_symlink()), (True, False))
    desk.same("the image has changed", len(entries_of(desk.read("V.IMG"), V, 0, "C.TXT")), 1)
    desk.same("the image keeps its mode", desk.path("V.IMG").stat().st_mode & 0o777, 0o640)
    desk.path("link").unlink()
    before = desk.read("V.IMG")
    desk.path("second").hardlink_to(desk.path("V.IMG"))
    status, _, said = desk.run("erase", "V.IMG", "c.txt")
    desk.same("a change of an image with two names is done, and says so", (status, b"V.IMG had another name" in said), (0, True))
    desk.same("the other name keeps the old disk", (desk.read("second"), desk.read("V.IMG") == before), (before, False))
    desk.path("second").unlink()


class Lost(Desk):
    def leaves_image(self, what, name, *words):
        """refused, as the image is locked, and the image is as it was"""
        before = self.read(name)
        status, _, said = self.run(*words)
        right = status == 1 and b"is being changed by another command" in said and self.read(name) == before
        self.add(what, "" if right else f"it ended with {status} ({said.decode()!r})")


def run(tally):
    desk = Lost(tally, "nothing lost")
    if not shutil.which("strace"):
        desk.add("strace", "it is not there, and ends the tool in these tests")
        return
    for words, name in RUNS:
        lay(desk)
        old, _ = state(desk, name)
        status, lines = traced(desk, words)
        new, others = state(desk, name)
        desk.same(f"{' '.join(words)}: done, and the file has changed", (status, others, old == new), (0, [], False))
        calls = calls_of(lines, words[1:])
        order = [re.sub(r"at2?$", "", call) for call, _, _ in calls if re.match("fsync|rename|link", call)]
        taken = "rename" if old else "link"
        desk.same(f"{' '.join(words)}: flushed, then it takes its name, then the folder flushed", order, ["fsync", taken, "fsync"])
        killed(desk, words, name, old, new, calls)
        failing(desk, words, name, old, new, calls)
        signalled(desk, words, name, new)
    two_at_once(desk)
    links(desk)
