#!/bin/sh
# A client of `mudflatjar serve`: presses a button and waits for the LED.  client.sh PROGRAM FOLDER
pipes=$(mktemp -d) || exit 1
trap 'rm -rf "$pipes"' EXIT
mkfifo "$pipes/requests" "$pipes/answers"
"$1" serve "$2" <"$pipes/requests" >"$pipes/answers" &
exec 3>"$pipes/requests" 4<"$pipes/answers"

answer() { # sets kind, cycle, count and words, and passes over the block
    read -r kind cycle count words <&4 || exit 1
    if [ "$kind" = no ]; then
        echo "refused: $count $words" >&2
        exit 1
    fi
    [ "$count" = 0 ] || dd bs=1 count=$((count + 1)) <&4 >"$pipes/block" 2>/dev/null
}
ask() {
    echo "$*" >&3
    answer
}

answer
ask run 160000
ask press btn1
ask run 1760000 edge uno.13
moved=$cycle
ask level uno.13
echo "pin 13 is $words after $((moved - 160000)) cycles"
ask quit
