#!/bin/sh
# Makes the modules of the chips that stand for parts of Wokwi again, with sdk/build.sh. With --into FOLDER it puts them there.
here=$(cd "$(dirname "$0")" && pwd) || exit 1
into=$here/chips
[ "${1:-}" = --into ] && into=$2
for source in "$here"/chips/*.c; do
    module=$into/$(basename "$source" .c).wasm
    "$here/../../sdk/build.sh" -o "$module" "$source" || exit 1
    chmod a-x "$module"
done
