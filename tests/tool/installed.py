"""./install puts everything in its place, and the installed files serve a C and a C++ program as others would use them."""
import subprocess

from desk import C, CPP, NATIVE, ROOT, TOOL, Desk

PROGRAM = r"""
#include <churawel.h>
#include <stdio.h>
#include <string.h>

static uint8_t volume[40 * 1024];

int main(void)
{
    uint8_t drive[CHURAWEL_DRIVE_BYTES];
    memset(volume, 0xE5, sizeof volume);
    uint32_t answer = churawel_log_in(1024, 40, 1, CHURAWEL_STRAIGHT, volume, sizeof volume, drive, sizeof drive);
    printf("%u %u\n", CHURAWEL_NUMBER(answer), CHURAWEL_VALUE(answer));
    return 0;
}
"""
PLACES = ["bin/churawel", "lib/libchurawel.a", "include/churawel.h", "share/man/man1/churawel.1", "lib/pkgconfig/churawel.pc"]


# What compiles C, what compiles C++, and what links; of the cross compilers C's links C++ too, since the program uses nothing of
# C++'s library.
LINKS_C, LINKS_CPP = ([C], [CPP]) if NATIVE else ([C, "-static"], [C, "-static"])
WAYS = [("C", [C, "-std=c11"], "program.c", LINKS_C), ("C++", [CPP, "-std=c++17"], "program.cpp", LINKS_CPP)]
STRICT = ["-Wall", "-Wextra", "-pedantic", "-Werror"]


def words_for(desk, prefix, question):
    """what pkg-config answers of the installed files"""
    asked = subprocess.run(["pkg-config", question, "churawel"], capture_output=True, text=True, check=True,
                           env={**desk.environment, "PKG_CONFIG_PATH": str(prefix / "lib/pkgconfig")})
    return asked.stdout.split()


def compiled(desk, prefix, compiler, source, linker):
    """compiles and links with pkg-config's words, and runs; what was printed"""
    compiling = [*compiler, *STRICT, *words_for(desk, prefix, "--cflags"), "-c", source, "-o", "program.o"]
    linking = [*linker, "program.o", "-o", "program", *words_for(desk, prefix, "--libs")]
    for command in (compiling, linking):
        ran = subprocess.run(command, cwd=desk.folder, capture_output=True, text=True)
        if ran.returncode != 0:
            return ran.stderr
    return subprocess.run([*TOOL[:-1], desk.path("program")], capture_output=True, text=True).stdout


def run(tally):
    desk = Desk(tally, "installed")
    prefix = desk.path("prefix")
    ran = subprocess.run([ROOT / "install", prefix], capture_output=True, text=True)
    desk.same("install", (ran.returncode, ran.stderr), (0, ""))
    for place in PLACES:
        desk.same(f"install: {place}", (prefix / place).is_file(), True)
    desk.same("install without a prefix is wrong use", subprocess.run([ROOT / "install"], capture_output=True).returncode, 2)
    said = subprocess.run([prefix / "bin/churawel", "new", "V.IMG"], cwd=desk.folder, capture_output=True, text=True).stdout
    desk.same("the installed tool", said, "V.IMG: an empty disk, free blocks: 39\n")
    said = subprocess.run([ROOT / "churawel", "check", "V.IMG"], cwd=desk.folder, capture_output=True, text=True).stdout
    desk.same("./churawel, where the caller stands", said, "V.IMG: the disk is sound, free blocks: 39\n")
    for language, compiler, source, linker in WAYS:
        desk.write(source, PROGRAM.encode())
        desk.same(f"a program in {language} over the installed files", compiled(desk, prefix, compiler, source, linker), "0 39\n")
    desk.same("pkg-config's version", words_for(desk, prefix, "--modversion"), [(ROOT / "tool/VERSION").read_text().strip()])
