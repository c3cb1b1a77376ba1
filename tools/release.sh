#!/bin/sh
# Makes a release of the commit at hand from its built program:  tools/release.sh [--gate-passed] [PROGRAM]
#   dist/              the program, the page in which it runs in a browser and the program for Node if target/web has their
#                      module, of which commit and sources they are (RELEASE), and their sums: to be committed
#   target/release/    an archive for Linux on x86-64, and its sum
# PROGRAM is crates/sim_main/out/sim_main if it is not named. The commit's gate must have passed: .ci/run notes that in
# target/mudflatjar.made; --gate-passed says that it passed elsewhere. The archive is unpacked and tried in an empty folder.
#   tools/release.sh --verify    builds the commit of dist/RELEASE from nothing in a new clone, and compares the sums.
#                                This takes as long as a first build
unset CDPATH
cd "$(dirname "$0")/.." || exit 1
root=$(pwd -P)
say() { echo "release: $*" >&2; }
stop() { say "$*"; exit 1; }
word_of() { sed -n "s/^$1 //p" "$2" 2>/dev/null | head -n 1; } # NAME FILE

for tool in git tar xz sha256sum python3; do command -v "$tool" >/dev/null || stop "$tool is not there: sudo apt-get install -y git tar xz-utils coreutils python3"; done
work=$(mktemp -d) || exit 1
trap 'rm -rf "$work"' EXIT

verify() {
    commit=$(word_of commit dist/RELEASE)
    [ -n "$commit" ] || stop "there is no release in dist/"
    { git clone -q --no-hardlinks . "$work/clone" && git -C "$work/clone" checkout -q "$commit"; } || stop "commit $commit cannot be had"
    rm -rf "$work/clone/dist"
    "$work/clone/mudflatjar" make 7 --us 100 || stop "the build failed"
    ours=$(sha256sum <dist/mudflatjar)
    theirs=$(sha256sum <"$work/clone/target/mudflatjar")
    say "dist/mudflatjar  $ours"
    say "built anew       $theirs"
    [ "$ours" = "$theirs" ] || stop "the bytes differ; were both built by one toolchain? dist/RELEASE says $(word_of kit dist/RELEASE)"
    say "the same bytes"
}

passed=
program=crates/sim_main/out/sim_main
for word in "$@"; do
    case $word in
    --verify) verify; exit ;;
    --gate-passed) passed=1 ;;
    -*) sed -n 's/^# \{0,1\}//p' "$0" | sed 1d >&2; exit 2 ;;
    *) program=$word ;;
    esac
done

commit=$(git rev-parse HEAD) || stop "this is no clone"
[ -z "$(git status --porcelain -- crates crates.txt HANDLES)" ] || stop "crates/ has changes that are in no commit"
[ -x "$program" ] || stop "there is no program $program: .ci/run builds it"
sum=$(tools/script/sources.sh sum)
if [ -z "$passed" ]; then
    [ "$(word_of gate target/mudflatjar.made)" = "$sum" ] || stop "no gate has passed here for these sources: run .ci/run, or say --gate-passed"
    cmp -s "$program" target/mudflatjar || stop "$program is not the program of that gate"
fi
kit=$(word_of kit target/mudflatjar.made)
[ -n "$kit" ] || kit=$(rt version 2>/dev/null) || stop "no rt says which toolchain built the program"
libc=$(tr -c '[:alnum:]_.' '\n' <"$program" | sed -n 's/^GLIBC_\([0-9][0-9.]*\)$/\1/p' | sort -uV | tail -n 1)
case $(printf '%s\n' "$libc" 2.34 | sort -V | tail -n 1) in 2.34) ;; *) stop "the program needs glibc $libc, and a release promises 2.34" ;; esac

rm -rf dist && mkdir dist || exit 1
cp "$program" dist/mudflatjar && chmod 755 dist/mudflatjar || exit 1
if [ -f tools/web/assemble.py ] && [ -f target/web/mudflatjar.wasm ]; then
    grep -q '^# proved, ' target/web/SUMS || stop "the module in target/web is not proved: tools/web/build.sh makes one that is"
    [ "$(word_of '# sources' target/web/SUMS)" = "$(tools/script/sources.sh sum web_page)" ] || stop "the module in target/web is of other sources: tools/web/build.sh makes it anew"
    (cd target/web && sha256sum -c --quiet SUMS) || stop "the module in target/web is not the one that was built"
    python3 -B tools/web/assemble.py -o dist/mudflatjar.html || stop "the page could not be made"
    python3 -B tools/web/assemble.py --node -o dist/mudflatjar.mjs || stop "the program for Node could not be made"
else
    say "without the page for a browser and the program for Node: target/web has no module (tools/web/build.sh makes it)"
fi
(cd dist && sha256sum mudflatjar* >SHA256SUMS) || exit 1
printf 'commit %s\nkit %s\nsources %s\nglibc %s\n' "$commit" "$kit" "$sum" "$libc" >dist/RELEASE

# the archive
name=mudflatjar-$(git log -1 --format=%cd --date=format:%Y%m%d)-$(git rev-parse --short=7 HEAD)-linux-x86_64
at=$work/$name
mkdir -p "$at/share/man/man1" "$at/share/completions" target/release || exit 1
git ls-files -z -- mudflatjar README.md docs sdk examples tools/script tools/setup.sh tools/look tools/wokwi python/mudflatjar python/mudflatjar-1.0.dist-info tools/scenario.py tools/run-tests tools/truth.py tools/display.py | xargs -0 sh -c 'at=$0; for it in "$@"; do mkdir -p "$at/$(dirname "$it")" && cp "$it" "$at/$it" || exit 255; done' "$at" || exit 1
cp -R dist "$at" || exit 1
for form in bash zsh fish; do "$at/mudflatjar" completion $form >"$at/share/completions/mudflatjar.$form" || exit 1; done
"$at/mudflatjar" completion man >"$at/share/man/man1/mudflatjar.1" || exit 1
rm -rf "$at/target"
(cd "$at" && find . -type f -print | LC_ALL=C sort | tr '\n' '\0' | xargs -0 sha256sum) >"$work/sums" || exit 1
mv "$work/sums" "$at/SHA256SUMS" || exit 1
rm -f target/release/mudflatjar-*
tar -C "$work" --sort=name --owner=0 --group=0 --numeric-owner --mtime="@$(git log -1 --format=%ct)" -cf - "$name" | xz -9 >"target/release/$name.tar.xz" || exit 1
(cd target/release && sha256sum "$name.tar.xz" >SHA256SUMS)

# tried where nothing else is: an empty folder, and a path with a shell's own tools alone
mkdir "$work/empty" "$work/few" && cd "$work/empty" || exit 1
for tool in sh sed awk dirname readlink head tail grep mkdir cksum tr cut cat; do ln -s "$(command -v $tool)" "$work/few/$tool"; done
{ xz -dc "$root/target/release/$name.tar.xz" | tar -xf - && (cd "$name" && sha256sum -c --quiet SHA256SUMS); } || stop "the archive cannot be unpacked"
tried() { env -i HOME="$work/empty" PATH="$work/few" "$name/mudflatjar" "$@"; }
{ tried run "$name/examples/blink" --us 1 --vcd wave.vcd && cmp wave.vcd "$name/examples/blink/expected/run.vcd"; } || stop "the archive's program does not run"
tried --version || stop "the archive's script does not run"
{ tried --help >help && grep -q 'run FOLDER' help; } || stop "the archive has no help"
say "dist/ and target/release/$name.tar.xz ($(($(wc -c <"$root/target/release/$name.tar.xz") / 1024)) KB) are made and tried; dist/mudflatjar needs glibc $libc"
