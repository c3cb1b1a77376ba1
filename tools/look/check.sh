#!/bin/sh
# Tests of look: reading, packing and pages without a browser, the scripts in node or Chromium, the pages in Chromium; what is not
# installed is skipped with a message. Ends with 1 where one fails. PROGRAM is the program to try, target/mudflatjar if it is not set.
here=$(cd "$(dirname "$0")" && pwd)
PROGRAM=$(realpath "${PROGRAM:-$here/../../target/mudflatjar}")
export PROGRAM
bad=0
for test in test_run test_scripts test_played test_browser; do
    python3 -B "$here/$test.py" || bad=1
done
exit $bad
