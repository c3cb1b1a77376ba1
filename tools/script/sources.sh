#!/bin/sh
# The sources of the program: src/, specs/ and proofs/ of sim_main and of the crates below it, with their lines of
# crates.txt. What only the gate reads (rows, wrong bodies, other programs) is not among them.
#   sources.sh names [CRATE] the crates' names, a line each; with CRATE that crate in place of sim_main
#   sources.sh copy CRATE TO copies them, with crates.txt and HANDLES
#   sources.sh newer FILE    nothing, or one source that is newer than FILE (any where there is no FILE)
#   sources.sh sum [CRATE]   one SHA-256 sum of all of them
unset CDPATH
cd "$(dirname "$0")/../.." || exit 1

lines() { # the lines of crates.txt of these crates
    awk -F: '
        /^[a-z]/ { name = $1; sub(/ .*/, "", name); uses[name] = $2; line[name] = $0 }
        function visit(name,  i, n, names) {
            if (!(name in uses) || name in seen) return
            seen[name]
            n = split(uses[name], names, " ")
            for (i = 1; i <= n; i++) visit(names[i])
            print line[name]
        }
        END { visit(top) }' top="$top" crates.txt
}
top=sim_main
names() { lines | sed 's/[ :].*//'; }
folders() { names | sed 's|.*|crates/&/src\ncrates/&/specs\ncrates/&/proofs|' | while read -r folder; do [ ! -d "$folder" ] || echo "$folder"; done; }

case $1 in
names)
    top=${2:-$top}
    names
    ;;
copy)
    top=$2
    mkdir -p "$3/crates" || exit 1
    lines >"$3/crates.txt"
    cp HANDLES "$3/" || exit 1
    for folder in $(folders); do
        mkdir -p "$3/${folder%/*}" && cp -R "$folder" "$3/${folder%/*}/" || exit 1
    done
    ;;
newer)
    [ -e "$2" ] || { echo crates.txt; exit 0; }
    # a folder is newer where a file joined it or left it
    # shellcheck disable=SC2046
    find crates.txt $(folders) -newer "$2" -print 2>/dev/null | head -n 1
    ;;
sum)
    top=${2:-$top}
    # shellcheck disable=SC2046
    { lines; find $(folders) -type f -print | LC_ALL=C sort | tr '\n' '\0' | xargs -0 sha256sum; } | sha256sum | cut -d ' ' -f 1
    ;;
*)
    sed -n 's/^# \{0,1\}//p' "$0" | sed 1d >&2
    exit 2
    ;;
esac
