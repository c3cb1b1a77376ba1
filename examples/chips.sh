#!/bin/sh
# Makes the modules of the chips of the examples again, with sdk/build.sh. With --into FOLDER it puts all of them there.
here=$(cd "$(dirname "$0")" && pwd)
into=
[ "${1:-}" = --into ] && into=$2
chip() { # FOLDER NAME WORDS OF build.sh
    folder=$1 name=$2
    shift 2
    file=${into:-$here/$folder}/$name.wasm
    "$here/../sdk/build.sh" "$@" -o "$file" "$here/$folder/$name.c" || exit 1
    chmod a-x "$file"
}
for name in inverter blinker counter thermometer registers echo typist; do
    chip chip-$name $name
done
chip chip-display bars
clang=${CLANG:-clang}
if [ -f "$("$clang" --target=wasm32-wasi --print-file-name=libc.a)" ] && [ -f "$("$clang" --target=wasm32-wasi --print-libgcc-file-name)" ]; then
    chip chip-printf logger --libc
else
    echo "no wasi-libc or libclang-rt-dev-wasm32: the module of chip-printf is left as it is" >&2
fi
[ -n "$into" ] && exit
for name in by-table without-its-third-write; do
    "$here/../sdk/build.sh" -o "$here/twin/$name/inverter.wasm" "$here/twin/$name/inverter.c" || exit 1
    chmod a-x "$here/twin/$name/inverter.wasm"
done
