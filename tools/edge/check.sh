#!/bin/sh
# The program on the real system: files that are missing, cannot be read or are folders; a word that is no text; outputs that cannot
# be made or written, and a good run whose file is compared byte for byte. Each with its status and its line on standard error.
# Ends with 1 where one ends otherwise. PROGRAM is the program to try, target/mudflatjar if it is not set.
here=$(cd "$(dirname "$0")/../.." && pwd)
program=${PROGRAM:-$here/target/mudflatjar}
examples=$here/examples
folder=$(mktemp -d) || exit 1
trap 'chmod -R u+rwx "$folder"; rm -rf "$folder"' EXIT
cd "$folder" || exit 1
bad=0

ends() { # NAME STATUS COMPLAINT; how the program ended stands in status and said
    if [ "$(cat status)" = "$2" ] && [ "$(cat said)" = "$3" ]; then echo "$1: ok"; else
        echo "$1: status $(cat status), not $2; \"$(cat said)\", not \"$3\""
        bad=1
    fi
}
holds() { # NAME FILE EXPECTED
    if cmp -s "$2" "$3"; then echo "$1: ok"; else echo "$1: another file than $3"; bad=1; fi
}
try() { # WORDS; standard output is thrown away
    "$program" "$@" >/dev/null 2>said
    echo $? >status
}

cp -R "$examples/blink" p
wave=$examples/blink/expected/run.vcd

try run p --us 1 --vcd w.vcd
ends "a wave in a file" 0 ""
holds "the file of the wave" w.vcd "$wave"
[ "$(ls)" = "$(printf '%s\n' p said status w.vcd)" ] || { echo "files of other names were made: $(ls)"; bad=1; }
echo "an older and longer wave" >w.vcd
cat "$wave" "$wave" >>w.vcd
try run p --us 1 --vcd w.vcd
holds "a wave over an older one" w.vcd "$wave"
"$program" run p --us 1 --vcd - >out 2>said
echo $? >status
ends "a wave on standard output" 0 ""
holds "standard output" out "$wave"
"$program" check p >out 2>said
echo $? >status
ends "an answer on standard output" 0 ""
holds "the answer" out "$examples/blink/expected/check.txt"

printf '%s\n' 'cycles 16' 'uno uno pc 0x0002 run' 'led led1 on lit 3' >expected.txt
try run p --us 1 --report r.txt
ends "a report in a file" 0 ""
holds "the file of the report" r.txt expected.txt
try run p --us 1 --report none/r.txt
ends "a report in a folder that is not there" 6 "write failed"
try run p --us 1 --script none.txt --report r.txt
ends "a script that is not there" 4 "none.txt: missing"
holds "the report of the run before" r.txt expected.txt

# a file of more bytes than one read takes: records of data that repeat, before the last line
{
    for _ in 1 2 3 4 5 6 7 8 9 10; do sed '$d' "$examples/sort/sort.hex"; done
    for _ in 1 2 3 4 5 6 7 8 9 10; do sed '$d' "$examples/sort/sort.hex"; done
    cat "$examples/sort/sort.hex"
} >long.hex
"$program" bare "$examples/sort/sort.hex" --us 100 >short.vcd 2>said
"$program" bare long.hex --us 100 >long.vcd 2>said
echo $? >status
ends "a file of $(wc -c <long.hex | tr -d ' ') bytes" 0 ""
holds "the wave of the long file" long.vcd short.vcd

try run q --us 1 --vcd w.vcd
ends "a folder that is not there" 4 "q/wokwi.toml: missing"
try bare none.hex --us 1
ends "a file that is not there" 4 "none.hex: missing"
try bare p/blink.hex --us 1 "$(printf '\377')"
ends "a word that is not UTF-8" 2 "words not understood"
try bare p --us 1
ends "a folder in place of a file" 5 "p: read failed"
mkdir -p r/diagram.json && cp p/wokwi.toml p/blink.hex r
try check r
ends "a folder in place of the diagram" 5 "r/diagram.json: read failed"
try bare p/blink.hex/x --us 1
ends "a file in place of a folder" 5 "p/blink.hex/x: read failed"

cp -R p own
try run own --us 1 --vcd own/diagram.json
ends "an output that is an input of the run" 0 ""
holds "the wave where the diagram was" own/diagram.json "$wave"
try run p --us 1 --vcd both --report both
ends "one file for the wave and the report" 0 ""
if cmp -s both "$wave" || cmp -s both expected.txt; then
    echo "one file for the wave and the report holds one of them, and docs/COMMANDS.md says neither"
    bad=1
fi

try run p --us 1 --vcd none/w.vcd
ends "an output in a folder that is not there" 6 "write failed"
[ ! -e none ] || { echo "the folder was made"; bad=1; }
mkdir out.vcd
try run p --us 1 --vcd out.vcd
ends "a folder in place of an output" 6 "write failed"

(trap '' XFSZ && ulimit -f 1 && try run p --us 1 --vcd past.vcd)
ends "a file past the caller's limit" 6 "write failed"
sh -c 'kill -XFSZ $$' 2>/dev/null
if [ $? = 153 ]; then
    (ulimit -f 1 && try run p --us 1 --vcd past.vcd) 2>/dev/null
    : >said # where the shell may tell of the signal
    ends "a file past the limit of a caller who does not ignore the signal" 153 ""
else
    echo "a file past the limit, which ends the program: skipped, this caller ignores the signal" >&2
fi
if [ -c /dev/full ]; then
    try run p --us 1 --vcd /dev/full
    ends "a full device" 6 "write failed"
    "$program" bare p/blink.hex --us 1 >/dev/full 2>said
    echo $? >status
    ends "standard output on a full device" 6 "write failed"
    "$program" check p >/dev/full 2>said
    echo $? >status
    ends "an answer on a full device" 6 "write failed"
else
    echo "a full device: skipped, there is no /dev/full" >&2
fi
"$program" bare p/blink.hex --us 1 >&- 2>said
echo $? >status
ends "a closed standard output" 6 "write failed"
"$program" check p >&- 2>said
echo $? >status
ends "an answer on a closed standard output" 6 "write failed"
# the reader ends after one line of a wave that no pipe holds; the program must not be killed by it
{ "$program" bare p/blink.hex --us 20000 2>said; echo $? >status; } | head -n 1 >/dev/null
ends "a reader that ends" 6 "write failed"
"$program" bare none.hex --us 1 >/dev/null 2>&-
echo $? >status
: >said
ends "a closed standard error" 4 ""
# no file may take the number of an output that is closed, or what goes there would stand in it
"$program" run p --us 1 --vcd w.vcd --report - >&- 2>said
echo $? >status
ends "a report on a closed standard output" 6 "write failed"
holds "the file of the wave beside it" w.vcd "$wave"
"$program" run "$examples/serial-hello" --us 20000 --report r.txt >&- 2>said
echo $? >status
ends "bytes on a closed standard output" 6 "write failed"
: >nothing
holds "the file of the report beside them" r.txt nothing
"$program" run p --us 1 --vcd w.vcd --report none/r.txt >/dev/null 2>&-
echo $? >status
: >said
ends "a complaint on a closed standard error" 6 ""
! grep -q failed w.vcd || { echo "the complaint stands in the file of the wave"; bad=1; }

# an unreadable file and a folder that takes no file: only for a user to whom the system refuses them
chmod 000 p/blink.hex
mkdir locked && chmod 555 locked
if [ -r p/blink.hex ]; then
    if command -v setpriv >/dev/null && chmod 755 "$folder" && [ "$(id -u)" = 0 ]; then
        as="setpriv --reuid 65534 --regid 65534 --clear-groups"
    fi
else
    as="env"
fi
if [ -n "$as" ] && $as "$program" bare long.hex --us 1 >/dev/null 2>said; then
    $as "$program" bare p/blink.hex --us 1 >/dev/null 2>said
    echo $? >status
    ends "a file that cannot be read" 5 "p/blink.hex: read failed"
    chmod 644 p/blink.hex
    $as "$program" run p --us 1 --vcd locked/w.vcd >/dev/null 2>said
    echo $? >status
    ends "an output that cannot be made" 6 "write failed"
else
    echo "a file that cannot be read: skipped, since root reads all and no other user can start the program" >&2
fi
exit $bad
