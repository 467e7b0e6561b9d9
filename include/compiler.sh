# shellcheck shell=sh
# For the scripts that build C beside the proved library: a C compiler for x86-64, installed from Debian's packages
# where it is missing, and on another processor the emulator that the toolchain brings. Sets compiler, machine and
# emulator.
machine=$(uname -m)
emulator=''
case $machine in
x86_64)
    compiler=gcc packages='gcc libc6-dev'
    if ! command -v gcc >/dev/null && command -v cc >/dev/null; then compiler=cc; fi
    ;;
*)
    compiler=x86_64-linux-gnu-gcc packages='gcc-x86-64-linux-gnu libc6-dev-amd64-cross'
    # The emulator stands beside the toolchain's compiler, as `rt` itself finds it.
    emulator=$(dirname "$(dirname "$(rt doc)")")/on/$machine/toolchain/bin/qemu-x86_64
    [ -x "$emulator" ] || { echo "the toolchain has no emulator for $machine" >&2; exit 2; }
    ;;
esac

install() {
    echo "installs $*"
    sudo=''
    [ "$(id -u)" = 0 ] || sudo=sudo
    { $sudo apt-get update -qq && $sudo apt-get install -y -qq --no-install-recommends "$@"; } >&2
}

# A compiler without the C library's headers is of no use, so the test is a header.
has_header() { echo "#include <$1>" | "$compiler" -E - >/dev/null 2>&1; }
if ! has_header stdio.h; then
    # shellcheck disable=SC2086
    install $packages
    has_header stdio.h || { echo "no C compiler that makes programs for x86-64" >&2; exit 2; }
fi

compile() { "$compiler" -std=c11 -O2 -Wall -Wextra -pedantic "$@"; }

# On another processor everything is linked statically, for the emulator.
static=''
[ -z "$emulator" ] || static=-static

# Proves the store, and puts the library for hosts in C where they link it from.
prove_library() {
    (cd crates/host_c && rt lib)
    mkdir -p target/staticlib
    cp crates/host_c/out/libhost_c.a target/staticlib/libhost.a
}
