#!/bin/sh
# The program in Node on the real system: its outputs and their faults, and the same faults of words and files as elsewhere.
# PROGRAM is the program to try.
here=$(cd "$(dirname "$0")" && pwd)
root=$(cd "$here/../../.." && pwd)
program=${PROGRAM:-$here/../mudflatjar.mjs}
folder=$(mktemp -d) || exit 1
trap 'rm -rf "$folder"' EXIT
cd "$folder" || exit 1
bad=0
ends() { # NAME STATUS COMPLAINT; how it ended is in status and said
    if [ "$(cat status)" = "$2" ] && [ "$(cat said)" = "$3" ]; then echo "$1: ok"; else
        echo "$1: status $(cat status), not $2; \"$(cat said)\", not \"$3\""
        bad=1
    fi
}
holds() { # NAME FILE EXPECTED
    if cmp -s "$2" "$3"; then echo "$1: ok"; else echo "$1: another file than $3"; bad=1; fi
}
try() {
    "$program" "$@" >/dev/null 2>said
    echo $? >status
}

PROGRAM=$program "$here/faults.sh" || bad=1
cp -R "$root/examples/blink" p
wave=$root/examples/blink/expected/run.vcd
cat "$wave" "$wave" >w.vcd
try run p --us 1 --vcd w.vcd
ends "a wave over an older one" 0 ""
holds "the file of the wave" w.vcd "$wave"
"$program" run p --us 1 --vcd - >out 2>said
echo $? >status
ends "a wave on standard output" 0 ""
holds "standard output" out "$wave"
"$program" check p >out
holds "an answer on standard output" out "$root/examples/blink/expected/check.txt"
try run p --us 1 --vcd none/w.vcd
ends "an output in a folder that is not there" 6 "write failed"
[ ! -e none ] || { echo "the folder was made"; bad=1; }
mkdir out.vcd
try run p --us 1 --report out.vcd
ends "a folder in place of an output" 6 "write failed"
if [ -c /dev/full ]; then
    try run p --us 1 --vcd /dev/full
    ends "a full device" 6 "write failed"
fi
{ "$program" bare p/blink.hex --us 20000 2>said; echo $? >status; } | head -n 1 >/dev/null
ends "a reader that ends" 6 "write failed"
"$program" bare "$root/examples/crc/crc.hex" --us 100000 | cksum >sum.pipe
"$program" bare "$root/examples/crc/crc.hex" --us 100000 >crc.vcd
cksum <crc.vcd >sum.file
holds "a long wave through a pipe" sum.pipe sum.file
long=$(printf 'n%.0s' 1 2 3 4 5 6 7 8 9 10)
long=$long$long$long$long$long
try run p --us 1 --vcd "$long$long$long$long$long$long"
ends "an output whose name has 300 bytes" 6 "write failed"
cp "$root/target/web/mudflatjar32.wasm" alone.wasm
MUDFLATJAR_WASM=$folder/alone.wasm try run p --us 1 --vcd w.vcd
ends "a module that is named" 0 ""
MUDFLATJAR_WASM=$folder/none.wasm try run p --us 1
if [ "$(cat status)" != 1 ] || ! grep -q 'no module' said; then echo "a module that is missing: $(cat said)"; bad=1; fi
exit $bad
