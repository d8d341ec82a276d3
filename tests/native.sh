# Sourced by build and by the tests that compile C, which stand in the repository's root and have set OUT.
# The archive of the crate churawel_c links into x86-64 programs. On x86-64 gcc compiles them and they run as they are; on another
# processor Debian's cross compiler and QEMU's user emulator do. What is lacking is installed by apt, and said so; where INSTALLS
# is no, it is only said.

FLAGS="-std=c11 -O2 -Wall -Wextra -pedantic -Iinclude"
ARCHIVE=target/staticlib/libchurawel.a
mkdir -p "$OUT"

install_packages() {
    echo "installing by apt: $*" >&2
    local root=""
    [ "$(id -u)" = 0 ] || root=sudo
    $root apt-get update -qq >&2
    DEBIAN_FRONTEND=noninteractive $root apt-get install -y -qq "$@" >&2
}

# need FILE-OR-COMMAND PACKAGE..: installs the packages where the command, or the file of this path, is not there.
need() {
    local what=$1
    shift
    if [ -e "$what" ] || command -v "$what" >/dev/null; then
        return
    fi
    if [ "${INSTALLS:-yes}" = no ]; then
        echo "$what is missing, which is needed here. On Debian: apt-get install $*" >&2
        exit 1
    fi
    install_packages "$@"
}

if [ "$(uname -m)" = x86_64 ]; then
    EMULATED=no
    CC=gcc
    CXX=g++
    CXX_PACKAGE=g++
    RUN=""
    need gcc gcc libc6-dev
else
    EMULATED=yes
    CC="x86_64-linux-gnu-gcc -static"
    CXX=x86_64-linux-gnu-g++
    CXX_PACKAGE=g++-x86-64-linux-gnu
    RUN=qemu-x86_64
    need x86_64-linux-gnu-gcc gcc-x86-64-linux-gnu
    need /usr/x86_64-linux-gnu/include/stdio.h libc6-dev-amd64-cross
    need qemu-x86_64 qemu-user
fi

# Is the archive not there, or older than one of its sources? What rt keeps in a room's folder out/ is none of them.
archive_is_old() {
    [ ! -e "$ARCHIVE" ] || [ -n "$(find crates crates.txt -name out -prune -o -regex 'crates/[^/]*' -type d -o -newer "$ARCHIVE" -print -quit)" ]
}

# Proves the seam and writes its archive, where that is old; what is printed goes to standard error.
archive() {
    if archive_is_old; then
        python3 -B tool/building.py staticlib churawel >&2
    fi
}

# compile PROGRAM SOURCE..: one program over the archive.
compile() {
    local program=$1
    shift
    $CC $FLAGS "$@" "$ARCHIVE" -o "$program"
}

# compile_cpp PROGRAM SOURCE: the same source as C++; linked as C is, since it uses nothing of C++'s library.
compile_cpp() {
    need $CXX $CXX_PACKAGE
    $CXX -std=c++17 -O2 -Wall -Wextra -pedantic -Iinclude -x c++ -c "$2" -o "$1.o"
    $CC "$1.o" "$ARCHIVE" -o "$1"
}
