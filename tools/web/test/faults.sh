#!/bin/sh
# Words and files that end otherwise than with 0, as docs/REFUSALS.md has them. PROGRAM is the program to try.
root=$(cd "$(dirname "$0")/../../.." && pwd)
program=${PROGRAM:-$root/mudflatjar}
folder=$(mktemp -d) || exit 1
trap 'rm -rf "$folder"' EXIT
cd "$folder" || exit 1
bad=0

ends() { # NAME STATUS COMPLAINT WORDS ..
    name=$1 status=$2 complaint=$3
    shift 3
    said=$("$program" "$@" 2>&1 >out)
    got=$?
    if [ "$got" = "$status" ] && [ "$said" = "$complaint" ]; then echo "$name: ok"; else
        echo "$name: status $got, not $status; \"$said\", not \"$complaint\""
        bad=1
    fi
}

cp -R "$root/examples/blink" p
ends "no words" 2 "words not understood"
ends "unknown words" 2 "words not understood" fly p
ends "no such folder" 4 "q/wokwi.toml: missing" run q --us 1
ends "a folder in place of a file" 5 "p: read failed" bare p --us 1
ends "a script that is missing" 4 "none.txt: missing" run p --us 1 --script none.txt
ends "a run time beyond all" 2 "words not understood" run p --us 10000001
: >p/diagram.json
ends "an empty diagram" 3 "p/diagram.json: refused 40 JsonText" check p
python3 -c 'print("[" * 200000)' >p/diagram.json
ends "a diagram of open brackets" 3 "p/diagram.json: refused 40 JsonText" check p
python3 -c 'print("{\"version\": 1, \"parts\": [" + "{}," * 100000 + "{}], \"connections\": []}")' >p/diagram.json
ends "a diagram of too many parts" 3 "p/diagram.json: refused 48 DiagramLimit" check p
python3 -c 'import sys; sys.stdout.buffer.write(bytes(i * i * 7 % 251 for i in range(1048577)))' >p/diagram.json
ends "a diagram that is too long" 3 "p/diagram.json: refused 10 FileTooLong" check p
cp "$root/examples/blink/diagram.json" p
printf ':10' >p/blink.hex
ends "a firmware that is cut" 3 "p/blink.hex: refused 22 HexLength line 1" run p --us 1
printf '\0asm' >short.wasm
ends "a module that is cut" 3 "short.wasm: refused 60 WasmMagic byte 4" module short.wasm
: >empty.hex
ends "an empty firmware" 3 "empty.hex: refused 26 HexNoEnd line 1" bare empty.hex --us 1
ends "and after all that it runs" 0 "" run "$root/examples/counter" --us 30 --vcd w.vcd
cmp w.vcd "$root/examples/counter/expected/run.vcd" || bad=1
exit $bad
