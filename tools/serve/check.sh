#!/bin/sh
# `serve` on the real system: requests that come together or one by one, from a file, a pipe and an empty input; lines of every
# length, with CR and bytes that are no text; an input that cannot be read, answers and waves that cannot be written; and random
# live boards of the examples against runs of their scripts, past 10 s and up to the end of a board's time too
# (tools/peers/live_boards.py; `--count N` of each, 2 if it is not said). PROGRAM is the program to try, target/mudflatjar if it is
# not set. Ends with 1 where one answers otherwise.
here=$(cd "$(dirname "$0")" && pwd)
program=${PROGRAM:-$here/../../target/mudflatjar}
examples=$here/../../examples
count=2
[ "$1" != --count ] || count=$2
folder=$(mktemp -d) || exit 1
trap 'rm -rf "$folder"' EXIT
bad=0

# WHAT STATUS: the files out and err of the folder are as expected and complained say
ends() {
    if [ "$status" = "$2" ] && cmp -s "$folder/out" "$folder/expected" && cmp -s "$folder/err" "$folder/complained"; then
        echo "$1: ok"
    else
        echo "$1: ended with $status"
        diff "$folder/expected" "$folder/out"
        diff "$folder/complained" "$folder/err"
        bad=1
    fi
}
serve() { # WORDS: requests on standard input
    "$program" serve "$examples/button" "$@" >"$folder/out" 2>"$folder/err"
    status=$?
}
expect() { # LINE..: on standard output; nothing on standard error
    printf '%s\n' "$@" >"$folder/expected"
    : >"$folder/complained"
}
greeting='ok 0 0 mudflatjar 1'

printf 'run 16\nrun 32\nquit\nrun 48\n' >"$folder/requests"
expect "$greeting" 'ok 16 0 0' 'ok 32 0 0' 'ok 32 0'
serve <"$folder/requests"
ends "requests of a file" 0
while read -r line; do
    sleep 0.05
    echo "$line"
done <"$folder/requests" | serve
ends "requests one by one, and one that nobody reads" 0

expect "$greeting"
serve </dev/null
ends "no request" 0

expect "$greeting" 'ok 16 0 0' 'ok 32 0 0'
printf 'run 16\r\nrun 32' | serve
ends "a CR, and a line without its end" 0

long=$(printf '%1018s' '' | tr ' ' x)
expect "$greeting" 'no 0 103 RequestPin' 'no 0 107 RequestLong' 'no 0 107 RequestLong' 'ok 16 0 0'
printf 'level %s\nlevel %sx\n%s%s%s%s%s\nrun 16\n' "$long" "$long" "$long" "$long" "$long" "$long" "$long" | serve
ends "lines of 1,024 bytes and more" 0

expect "$greeting" 'no 0 100 RequestUnknown' 'no 0 100 RequestUnknown' 'no 0 103 RequestPin' 'ok 16 0 0'
printf '\0\nr\377n 16\nlevel \303\nrun 16\n' | serve
ends "bytes that are no text" 0

# every answer is there before the next request is asked for
mkfifo "$folder/in" "$folder/back"
"$program" serve "$examples/button" <"$folder/in" >"$folder/back" 2>"$folder/err" &
exec 3>"$folder/in" 4<"$folder/back"
status=0
{
    read -r line && echo "$line"
    for until in 16 32 48; do
        echo "run $until" >&3
        read -r line && echo "$line"
    done
} <&4 >"$folder/out"
exec 3>&- 4<&-
wait $! || status=$?
expect "$greeting" 'ok 16 0 0' 'ok 32 0 0' 'ok 48 0 0'
ends "a dialogue, and the end of its input" 0

expect "$greeting"
echo "standard input: read failed" >"$folder/complained"
serve <"$examples"
ends "an input that is a folder" 5

: >"$folder/expected"
echo "write failed" >"$folder/complained"
serve --vcd "$folder/none/wave" </dev/null
ends "a wave in no folder" 6

if [ -c /dev/full ]; then
    "$program" serve "$examples/button" <"$folder/requests" >/dev/full 2>"$folder/err"
    status=$?
    : >"$folder/out"
    ends "answers on a full device" 6
    # the head of the wave is written in the first cycle, before the answer
    expect "$greeting"
    echo "write failed" >"$folder/complained"
    echo 'run 160000' | serve --vcd /dev/full
    ends "a wave on a full device" 6
else
    echo "serve: skipped, there is no /dev/full" >&2
fi

: >"$folder/expected"
echo "words not understood" >"$folder/complained"
serve --vcd - </dev/null
ends "a wave between the answers" 2

# the wave, the report and the bytes are those of a run under a script of what was given
set --
for it in "$examples"/*/; do
    if [ -f "$it/diagram.json" ] && [ -f "$it/wokwi.toml" ]; then set -- "$@" "$it"; fi
done
python3 -B "$here/../peers/live_boards.py" --count "$count" --far "$examples/low-power" "$program" "$@" || bad=1
exit $bad
