#!/bin/bash
# build.sh [--try]: makes the simulator's module for browsers and Node, in target/web:
#   mudflatjar.wasm    for a memory of 64 bits
#   mudflatjar32.wasm  the same for a memory of 32 bits, where binaryen's wasm-opt is there
#   SUMS               of what kind and of which sources they are, and their SHA-256 sums
# It proves crates/web_page and all crates below it. What the toolchain keeps of earlier runs of `rt ci` on this machine is not
# proved again. With --try it proves nothing: it compiles, for a first look.
set -euo pipefail
here=$(cd "$(dirname "$0")" && pwd)
root=$(cd "$here/../.." && pwd)
to=$root/target/web
sources=$root/tools/script/sources.sh
log=$to/build.log
STACK=4194304
say() { echo "web: $*" >&2; }
stop() {
    say "$*"
    exit 1
}
broken() { # WHY; what the toolchain said last stands before it
    tail -n 20 "$log" >&2
    stop "$1; target/web/build.log has all of it"
}
case "$*" in
"") kind=proved export=mudflatjar ;;
--try) kind=unproved export=mudflatjar=web_page_try::mudflatjar ;;
--help)
    sed -n '2,/^set /s/^# //p' "$0"
    exit 0
    ;;
*)
    sed -n '2,/^set /s/^# //p' "$0" >&2
    exit 2
    ;;
esac
command -v rt >/dev/null || stop "the toolchain's command rt is not there"
kit=$(dirname "$(rt doc)")
work=$(mktemp -d)
trap 'rm -rf "$work"' EXIT
repo=$work/repo
mkdir -p "$to"

links_to() { # FOLDER TO BUT..: in the folder TO, links to what FOLDER has but these names
    local it from=$1 into=$2
    shift 2
    mkdir -p "$into"
    for it in "$from"/*; do case " $* " in *" ${it##*/} "*) ;; *) ln -s "$it" "$into/" ;; esac; done
}
# The toolchain's compilers as they are, but for a clang that first keeps the module that it is given, and then does LINE.
with_clang() { # LINE TO
    links_to "$kit/toolchain" "$2" bin
    links_to "$kit/toolchain/bin" "$2/bin" clang
    printf '#!/bin/sh\n[ ! -f module.bc ] || cp module.bc "%s"\n%s\n' "$work/module.bc" "$1" >"$2/bin/clang"
    chmod +x "$2/bin/clang"
}

# `rt ci` proves the crates side by side and leaves the libraries; then the compiler is called as `rt ci` calls it for a
# program: it checks crates/web_page over these libraries, and compiles it once it is proved.
proved() {
    local it named words=()
    "$sources" copy web_page "$repo"
    mkdir "$repo/.git"
    say "proving crates/web_page and what is below it; where nothing is kept, this takes an hour or more"
    (cd "$repo" && rt ci) >"$log" 2>&1 </dev/null || broken "the proof failed"
    tail -n 1 "$log" | grep -q ' 0 failed$' || broken "rt ci does not say that all passed"
    for it in $("$sources" names web_page); do
        [ "$it" = web_page ] || words+=(-L "dependency=$repo/crates/$it/out/rlib")
    done
    read -r -a named <<<"$(sed -n 's/^web_page .*://p' "$repo/crates.txt")"
    for it in "${named[@]}"; do words+=(--extern "$it=$repo/crates/$it/out/rlib/$it.rlib"); done
    with_clang "exec '$kit/toolchain/bin/clang' \"\$@\"" "$work/toolchain"
    cd "$repo/crates/web_page"
    say "compiling crates/web_page"
    "$kit/bin/rattle" build --crate-name web_page src/lib.rt --crate-type staticlib --cpu x86-64 \
        --extern "std=$kit/rlibs/std.rlib" -L "dependency=$kit/rlibs" "${words[@]}" \
        --antt-project "$kit/rattle/logic/antt-project.json" --logic-built "$kit/logic_built" --links web_page= --empty-contracts \
        --toolchain "$work/toolchain" --backend llvm -o "$work/libpage.a" >"$work/said" 2>&1 </dev/null || { cat "$work/said" >>"$log" && broken "crates/web_page was not built"; }
    cat "$work/said" >>"$log"
    grep '^logic=proved ' "$work/said" || broken "the toolchain does not say that crates/web_page is proved"
}

# A copy of the crates with a program in place of the library, whose main calls the export: only of a program does the
# toolchain compile what is not proved. It need not be built to its end, so clang stops once the module is kept; the small
# module before it only tells the toolchain what clang can do.
unproved() {
    local view=$work/kit
    links_to "$kit" "$view" bin toolchain
    links_to "$kit/bin" "$view/bin" rt rtlib.py
    cp "$kit/bin/rt" "$kit/bin/rtlib.py" "$view/bin/"
    with_clang "[ ! -f module.bc ] || [ \"\$(wc -c <module.bc)\" -lt 100000 ] || exit 1
exec '$kit/toolchain/bin/clang' \"\$@\"" "$view/toolchain"
    "$sources" copy web_page "$repo"
    mv "$repo/crates/web_page" "$repo/crates/web_page_try"
    sed -i 's/^web_page staticlib:/web_page_try:/' "$repo/crates.txt"
    cat - >>"$repo/crates/web_page_try/src/lib.rt" <<'RT'

fn main(rt: HostRuntime) {
    let mut out = [0u8; 8];
    let _answer = mudflatjar(rt.alloc(), b"", 0, 0, 0, &mut out);
}
RT
    mv "$repo/crates/web_page_try/src/lib.rt" "$repo/crates/web_page_try/src/main.rt"
    cd "$repo/crates/web_page_try"
    say "compiling without a proof"
    "$view/bin/rt" try </dev/null >"$log" 2>&1 || true
    [ -f "$work/module.bc" ] || broken "it does not compile"
}

# The words that rattle gives clang for wasm64.
FLAGS=(--target=wasm64-unknown-unknown -mcpu=lime1 -mllvm -expand-div-rem-bits=64 -mllvm -expand-fp-convert-bits=64
    -ffunction-sections -fdata-sections -mllvm -trap-unreachable -mllvm -disable-machine-licm -mllvm -disable-postra-machine-licm
    -mllvm -sink-common-insts=false --no-default-config -no-canonical-prefixes -fno-crash-diagnostics -Werror)

compile() { # FROM.bc TO.wasm EXPORT
    local clang=$kit/toolchain/bin/clang
    cd "$work"
    "$clang" --target=x86_64-unknown-linux-gnu -x ir "$1" -S -emit-llvm -Xclang -disable-llvm-passes -o x86.ll
    python3 "$here/retarget.py" x86.ll wasm.ll "$3" | tee "$to/calls.txt"
    "$clang" "${FLAGS[@]}" -c -x ir wasm.ll -o module.o -O3
    "$clang" "${FLAGS[@]}" -c -x c -O2 -ffreestanding -nostdinc "$here/heap.c" -o heap.o
    rm -f libpage.a
    "$kit/toolchain/bin/llvm-ar" rcs libpage.a module.o heap.o
    "$kit/bin/rattle-link" --target wasm64-unknown-unknown --toolchain "$kit/toolchain" --stack "$STACK" -o "$2" libpage.a
}

sum=$("$sources" sum web_page)
"$kind"
[ -f "$work/module.bc" ] || stop "this toolchain hands clang no module.bc: tools/web/build.sh has to be adapted to it"
say "compiling for wasm"
compile "$work/module.bc" "$work/mudflatjar.wasm" "$export"
python3 "$here/module.py" "$work/mudflatjar.wasm"
cp "$work/mudflatjar.wasm" "$to/"
names=mudflatjar.wasm
rm -f "$to/mudflatjar32.wasm"
if command -v wasm-opt >/dev/null; then
    python3 "$here/module.py" --table32 "$work/mudflatjar.wasm" "$work/table32.wasm"
    wasm-opt --enable-memory64 --memory64-lowering --enable-bulk-memory --enable-sign-ext --enable-nontrapping-float-to-int --enable-mutable-globals --enable-multivalue \
        "$work/table32.wasm" -o "$to/mudflatjar32.wasm"
    python3 "$here/module.py" "$to/mudflatjar32.wasm"
    names="$names mudflatjar32.wasm"
else
    say "no wasm-opt (Debian's binaryen): the form for a memory of 32 bits is not made"
fi
cd "$to"
# shellcheck disable=SC2086
{ echo "# $kind, by $(rt version)"; echo "# sources $sum"; sha256sum $names; } >SUMS
cat SUMS
