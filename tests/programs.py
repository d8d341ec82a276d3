"""The programs under test: how they are built and run. They are compiled for x86-64; on another processor an emulator runs them."""
import platform
import subprocess
import sys
from pathlib import Path

ROOT = Path(__file__).resolve().parents[1]
sys.path.append(str(ROOT / "tool"))
from building import PROGRAMS, made


def there(name):
    """proves and builds the program NAME, where that is not done, and copies it to target/bin; is it there then?"""
    return made("program", name)


def command(name):
    """the words that run target/bin/NAME on this machine"""
    program = PROGRAMS / name
    if platform.machine() == "x86_64":
        return [program]
    libraries = ["-L", "/usr/x86_64-linux-gnu"] if Path("/usr/x86_64-linux-gnu").exists() else []
    return ["qemu-x86_64", *libraries, program]
