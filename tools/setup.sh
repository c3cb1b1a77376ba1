#!/bin/sh
# Installs the Debian packages that the checks and tools use, where it may (as root, or by sudo without a password), and
# else prints the one line that does:  tools/setup.sh [--list | --missing] [GROUP..]
# Groups: tests (what ./mudflatjar test uses), browser (for tests of pages), chips (to compile custom chips), sketches (to
# compile Arduino sketches).
# Without a name all of them. It installs only what is missing; --missing prints that and installs nothing. Ends with 0
# where all is there, and else with 1.
# The proofs need the toolchain, which no package has: README.md, "Build it yourself".

# GROUP, PACKAGE, and a command or file that is there once the package is
packages() {
    cat <<'EOF'
tests python3 python3
tests gcc cc
tests libc6-dev /usr/include/stdio.h
tests simavr simavr
tests libsimavr-dev /usr/include/simavr/sim_avr.h
tests gcc-avr avr-gcc
tests binutils-avr avr-addr2line
tests avr-libc /usr/lib/avr/include/avr/io.h
tests wabt wat2wasm
tests clang clang
tests lld wasm-ld
tests wasi-libc /usr/lib/wasm32-wasi/libc.a
tests libclang-rt-dev-wasm32 /usr/share/doc/libclang-rt-dev-wasm32
tests sigrok-cli sigrok-cli
tests gtkwave vcd2fst
tests arduino-core-avr /usr/share/arduino/hardware/arduino/avr/cores/arduino/Arduino.h
tests python3-yaml /usr/lib/python3/dist-packages/yaml
tests python3-luma.oled /usr/lib/python3/dist-packages/luma/oled
tests parallel parallel
tests nodejs node
tests binaryen wasm-opt
tests shellcheck shellcheck
tests xz-utils xz
tests python3-pytest /usr/lib/python3/dist-packages/pytest
tests python3-pytest-xdist /usr/lib/python3/dist-packages/xdist
tests mypy mypy
tests black black
chips clang clang
chips lld wasm-ld
chips wabt wat2wasm
chips wasi-libc /usr/lib/wasm32-wasi/libc.a
chips libclang-rt-dev-wasm32 /usr/share/doc/libclang-rt-dev-wasm32
sketches gcc-avr avr-gcc
sketches avr-libc /usr/lib/avr/include/avr/io.h
sketches binutils-avr avr-objcopy
sketches arduino-core-avr /usr/share/arduino/hardware/arduino/avr/cores/arduino/Arduino.h
browser chromium chromium
EOF
}
groups=
only=
for word in "$@"; do
    case $word in
    --list) packages; exit 0 ;;
    --missing) only=1 ;;
    tests | browser | chips | sketches) groups="$groups $word" ;;
    *) sed -n 's/^# \{0,1\}//p' "$0" | sed '1d; /^GROUP,/,$d' >&2; exit 2 ;;
    esac
done

is_there() { # WHAT
    case $1 in
    /*) [ -e "$1" ] ;;
    *) command -v "$1" >/dev/null ;;
    esac
}
missing() { # the packages of the groups whose command or file is not there
    packages | while read -r group package what; do
        case "${groups:- $group} " in *" $group "*) is_there "$what" || echo "$package" ;; esac
    done | sort -u | tr '\n' ' '
}

by_hand() { echo "this installs it: sudo apt-get update && sudo apt-get install -y --no-install-recommends $wanted" >&2; }

wanted=$(missing)
if [ -n "$only" ]; then
    echo "$wanted"
    exit 0
fi
[ -n "$wanted" ] || { echo "setup: nothing to do: all packages of${groups:- all groups} are installed" >&2; exit 0; }
as_root=
if [ "$(id -u)" != 0 ]; then
    as_root=sudo
    sudo -n true 2>/dev/null || as_root=none
fi
if ! command -v apt-get >/dev/null || [ "$as_root" = none ]; then
    echo "not there: $wanted" >&2
    by_hand
    exit 1
fi
# Nothing hangs: a server that does not answer, or a lock that another call holds, ends it.
apt() {
    # shellcheck disable=SC2086
    timeout -k 10 900 $as_root env DEBIAN_FRONTEND=noninteractive apt-get -y -o Acquire::Retries=1 -o Acquire::http::Timeout=20 -o DPkg::Lock::Timeout=300 "$@" >&2
}
apt update || echo "setup: the lists of packages could not be renewed" >&2
# shellcheck disable=SC2086
if ! apt install --no-install-recommends $wanted; then
    # an installation that was broken off is brought to its end; and one package that is not to be had keeps no other out
    timeout -k 10 600 $as_root env DEBIAN_FRONTEND=noninteractive dpkg --configure -a >&2
    for package in $wanted; do apt install --no-install-recommends "$package" || echo "setup: $package could not be installed" >&2; done
fi
wanted=$(missing)
[ -n "$wanted" ] || exit 0
echo "setup: not there, so what needs it is skipped: $wanted" >&2
by_hand
exit 1
