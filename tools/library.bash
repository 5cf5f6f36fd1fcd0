# The library for C and for web pages. To be sourced after program.bash, with `top` set.

# make_static CRATE [TARGET]: its static library for this machine, crates/CRATE/out/libCRATE.a, or for the target that is named,
# crates/CRATE/out/TARGET/libCRATE.a. It is made over the libraries as they lie proved; the crate itself is proved once more, and what
# is proved of it is kept. `rt lib` would prove all libraries again behind a whole check.
make_static() {
    local kit crate name words target=${2-} into=out
    kit=$(dirname "$(dirname "$(readlink -f "$(command -v rt)")")")
    words=(--extern "std=$kit/rlibs/std.rlib" -L "dependency=$kit/rlibs")
    for name in $(uses_of "$1"); do
        [ ! -d "$top/crates/$name" ] || words+=(--extern "$name=$top/crates/$name/out/rlib/$name.rlib")
    done
    for crate in $(crates_of "$1"); do
        [ "$crate" = "$1" ] || words+=(-L "dependency=$top/crates/$crate/out/rlib")
    done
    words+=(--antt-project "$kit/rattle/logic/antt-project.json" --logic-built "$kit/logic_built" --toolchain "$kit/toolchain")
    if [ -n "$target" ]; then
        into=out/$target
        words+=(--target "$target")
    fi
    mkdir -p "$top/crates/$1/$into"
    if ! (cd "$top/crates/$1" && "$kit/bin/rattle" build --crate-name "$1" src/lib.rt "${words[@]}" --links "$1=" \
        --crate-type staticlib --jobs 1 --backend llvm --incremental out/incremental -o "$into/lib$1.a") \
        >"$top/crates/$1/$into/library.log" 2>&1; then
        tail -n 20 "$top/crates/$1/$into/library.log" >&2
        give_up "the library of $1 was not made: ./prove and rt ci leave what it stands on"
    fi
}

# make_module CRATE FILE: its module for web pages.
make_module() {
    local kit target=wasm64-unknown-unknown
    kit=$(dirname "$(dirname "$(readlink -f "$(command -v rt)")")")
    make_static "$1" "$target"
    "$kit/bin/rattle-link" --target "$target" --toolchain "$kit/toolchain" -o "$2" "$top/crates/$1/out/$target/lib$1.a" ||
        give_up "the module of $1 was not linked"
}

need_lowering() {
    command -v wasm-opt >/dev/null 2>&1 || give_up "wasm-opt is not there (Debian package binaryen)"
}

# lower_module FROM TO: a module whose memory has addresses of 64 bits, made into one whose memory has addresses of 32, which every browser
# takes, and then made faster, and once more, since that finds what was left. The exports take the same numbers.
lower_module() {
    local features=(--enable-bulk-memory --enable-sign-ext --enable-mutable-globals --enable-nontrapping-float-to-int)
    wasm-opt --enable-memory64 "${features[@]}" --memory64-lowering -O3 "$1" -o "$2" && wasm-opt "${features[@]}" -O4 "$2" -o "$2" ||
        give_up "wasm-opt did not lower $1"
}

# Replies as a script has them: what a refusal has in a session alone is its reason, behind a colon.
without_reasons() {
    sed 's/^\(? [0-9]* [A-Za-z]*\( [0-9]*\)\{0,1\}\): .*/\1/'
}
