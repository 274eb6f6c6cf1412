# What both scripts need: the repository root, the compiler and the library under test.

here=$(CDPATH= cd -- "$(dirname -- "$0")" && pwd) || exit 2
root=$(CDPATH= cd -- "$here/../.." && pwd) || exit 2
out=$root/target/twin
library=${TWIN_LIBRARY:-$root/target/staticlib/librembilung.a}

fail() {
    echo "$name: $*" >&2
    exit 2
}

# The compiler from PATH, else from where rustup puts it in the user's home, which the environment need not name.
find_rustc() {
    home=${HOME:-$(getent passwd "$(id -u)" | cut -d: -f6)}
    if command -v rustc >/dev/null 2>&1; then
        rustc=rustc
    elif [ -x "$home/.cargo/bin/rustc" ]; then
        rustc=$home/.cargo/bin/rustc
    else
        fail "rustc is missing: it is neither on PATH nor in .cargo/bin of the user's home"
    fi
}

find_library() {
    [ -f "$library" ] || fail "the library is missing: $library (build it, or set TWIN_LIBRARY to its path)"
    [ -s "$library" ] || fail "the library is empty: $library"
    case $library in
    /*) ;;
    *) library=$(pwd)/$library ;;
    esac
}

# build OPTIMISATION ROOT BINARY: one crate root compiled and linked with the library.
build() {
    "$rustc" --edition 2024 -C opt-level="$1" -C overflow-checks=on \
        -C link-arg="$library" -o "$3" "$2"
}

# The twin itself, built again only where a source or the library is newer.
build_twin() {
    mkdir -p "$out" || fail "cannot make $out"
    [ -f "$out/built-with" ] && [ "$(cat "$out/built-with")" = "$library" ] || rm -f "$out/twin"
    if [ ! -x "$out/twin" ] || [ -n "$(find "$here/src" "$library" -newer "$out/twin")" ]; then
        rm -f "$out/twin"
        build 3 "$here/src/main.rs" "$out/twin" || fail "the twin was not built against $library"
        echo "$library" >"$out/built-with"
    fi
}
