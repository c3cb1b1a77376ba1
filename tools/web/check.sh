#!/bin/bash
# What is tested of the simulator in pages and in Node, in a minute or two. Ends with 1 where something differs, and says
# on standard error what it skips: without node or Chromium. Where tools/web/build.sh has built no module, the released page and
# the released program for Node are tried by the examples.
here=$(cd "$(dirname "$0")" && pwd)
root=$(cd "$here/../.." && pwd)
modules=$root/target/web
bad=0
skip() { echo "web: $*, skipped" >&2; }
quietly() { # NAME COMMAND ..; what it says only where it fails
    local name=$1 said
    shift
    if said=$("$@" 2>&1); then echo "web: $name: ok"; else
        echo "$said" | grep -v ': ok$'
        echo "web: $name: failed"
        bad=1
    fi
}

work=$(mktemp -d) || exit 1
trap 'rm -rf "$work"' EXIT
compiler=$(command -v cc || command -v gcc || command -v clang)
if [ -n "$compiler" ]; then
    "$compiler" -std=c11 -Wall -Wextra -Werror -O1 "$here/test/heap.c" -o "$work/heap" && quietly "the heap" "$work/heap" || bad=1
else
    skip "no C compiler: the heap"
fi
quietly "retargeting" python3 "$here/test/test_retarget.py"
quietly "the look at modules" python3 "$here/test/test_module.py"
[ -d "$root/tools/look/page" ] && quietly "the page's file" python3 "$here/test/test_assemble.py"
if command -v node >/dev/null; then
    quietly "the page's code" node --test "$here/test/test_page_code.mjs"
    quietly "the page's code and that of tools/wokwi do the same" python3 "$here/test/test_same.py"
else
    skip "no node: the page's code and the program in Node"
fi

browser=
for name in "${CHROMIUM:-chromium}" chromium-browser google-chrome chrome; do
    [ -n "$browser" ] || browser=$(command -v "$name")
done
if [ ! -f "$modules/mudflatjar.wasm" ] && [ ! -f "$modules/mudflatjar32.wasm" ]; then
    skip "no module is built (tools/web/build.sh): the program in Node and in a page of these sources"
    if command -v node >/dev/null && [ -f "$root/dist/mudflatjar.mjs" ]; then
        quietly "the examples in the released program for Node" env PROGRAM="$root/dist/mudflatjar.mjs" "$root/examples/check.sh"
    else
        skip "no node or no released program for Node: the examples in it"
    fi
    if [ -n "$browser" ] && [ -f "$root/dist/mudflatjar.html" ]; then
        export MUDFLATJAR_PAGE=$root/dist/mudflatjar.html
        quietly "the examples in the released page" "$here/test/in_page.py" --with "$root/examples/check.sh"
    else
        skip "no Chromium or no released page: the examples in it"
    fi
    exit "$bad"
fi
[ ! -f "$modules/SUMS" ] || quietly "the modules' sums" sh -c "cd '$modules' && sha256sum --quiet -c SUMS"
if command -v node >/dev/null; then
    quietly "the examples in Node" env PROGRAM="$here/mudflatjar.mjs" "$root/examples/check.sh"
    if [ -f "$modules/mudflatjar32.wasm" ]; then
        quietly "calls of the module" node --test "$here/test/test_call.mjs"
        quietly "the program for Node in one file" "$here/assemble.py" --node -o "$work/mudflatjar.mjs"
        quietly "files and outputs in Node" env PROGRAM="$work/mudflatjar.mjs" "$here/test/edges.sh"
    else
        skip "no module for a memory of 32 bits (Debian's binaryen makes it): the program for Node in one file"
    fi
fi
if [ -z "$browser" ]; then
    skip "no Chromium: the page"
else
    quietly "the page in one file" "$here/assemble.py" -o "$work/mudflatjar.html"
    export MUDFLATJAR_PAGE=$work/mudflatjar.html
    quietly "the examples in Chromium" "$here/test/in_page.py" --with "$root/examples/check.sh"
    quietly "faults in Chromium" "$here/test/in_page.py" --with "$here/test/faults.sh"
    quietly "the page in Chromium" python3 "$here/test/test_page.py"
fi
exit "$bad"
