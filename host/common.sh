# Sourced by ./z80 and the commands of host/: where things lie, what has to be there, how what is needed is built, one build at a
# time, and how it is run. The archive and the programs that the kit links are for x86-64.
top=$(cd "$(dirname "$(readlink -f "${BASH_SOURCE[0]}")")/.." && pwd -P)
PATH=$PATH:${HOME:-}/.cargo/bin
export CARGO_TARGET_DIR=$top/host/target
archive=$top/target/staticlib
lock=$top/target/lock
machine=$(uname -m)

fail() {
    echo "${0##*/}: $1" >&2
    exit 1
}

# need TOOL WHAT: ends where the tool is not on the path.
need() {
    command -v "$1" >/dev/null || fail "$1, $2, is not on the path"
}

# hold WORDS...: goes on when no other build is under way, and says the words where it has to wait. The next build waits until
# `release`, or until this script and what it runs end.
hold() {
    need flock "of util-linux"
    { mkdir -p "$top/target" && exec 9>>"$lock"; } || fail "nothing can be built: $lock cannot be written"
    if ! flock -n 9; then
        [ "$#" -eq 0 ] || echo "${0##*/}: $*" >&2
        flock 9 || fail "$lock cannot be locked"
    fi
}

release() {
    exec 9>&-
}

# The kit's folder.
kit() {
    cd "$(dirname "$(rt doc </dev/null)")" && pwd -P
}

# words_for PROGRAM: in `words`, those that run a program for x86-64: on another machine the kit's emulator comes before it.
words_for() {
    local chain
    words=("$1")
    if [ "$machine" != x86_64 ]; then
        chain=$(kit)/toolchain
        words=("$chain/bin/qemu-x86_64" "$chain/lib/ld-linux-x86-64.so.2" --library-path "$chain/lib" "$1")
    fi
}

# link FILE: compiles a C program of host/ and links it with the archive, where one of these or a header is newer; in `words`
# those that run it.
link() {
    local tools part newer='' name out target=x86_64-unknown-linux-gnu
    name=$(basename "$1" .c)
    out=$top/target/$name
    tools=$(kit)
    hold
    for part in "$top/host/$1" "$top"/host/z80.h "$top"/host/kit/*.h "$archive/libexports.a"; do
        [ "$part" -nt "$out/$name" ] && newer=$part
    done
    if [ -n "$newer" ]; then
        mkdir -p "$out"
        "$tools/toolchain/bin/clang" --target=$target -O2 -fPIC -ffreestanding -I "$top/host" -isystem "$top/host/kit" \
            -c "$top/host/$1" -o "$out/$name.o" || exit 1
        "$tools/bin/rattle-link" --target $target --toolchain "$tools/toolchain" -o "$out/$name" \
            "$out/$name.o" "$archive/libexports.a" 2>"$out/log" || {
            cat "$out/log" >&2
            exit 1
        }
    fi
    release
    words_for "$out/$name"
}

# start NAME WORDS...: builds a Rust program, with the archive in EXPORTS_DIR where that is set, and goes on as it.
start() {
    cargo build --release --offline --locked --quiet --manifest-path "$top/host/Cargo.toml" --bin "$1" \
        ${EXPORTS_DIR:+--features linked} || exit 1
    exec "$CARGO_TARGET_DIR/release/$1" "${@:2}"
}
