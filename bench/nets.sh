#!/bin/bash
# Measures `Nets::resolve_marked` on a board of 64 parts with 16 pins each and 512 wires, of which one pin drives something
# else before each of 1,000,000 resolutions (crates/rows_nets, word `bench`). Prints the processor time of one resolution, the
# least of three runs. The program is proved and built first.
set -eu
here=$(cd "$(dirname "$0")" && pwd)
cd "$here/../crates/rows_nets"
rt run >/dev/null 2>&1 </dev/null
best=
for i in 1 2 3; do
    s=$( { TIMEFORMAT=%U; time ./out/rows_nets bench >/dev/null; } 2>&1 )
    if [ -z "$best" ] || [ "$(echo "$s < $best" | bc)" = 1 ]; then best=$s; fi
done
echo "one resolution takes $best microseconds of processor time"
