# What the scripts of this folder share; each reads it first. Sets root, src (the Rust) and out; prints a script's head where --help is asked.
root=$(cd "$(dirname "$0")/.." && pwd -P)
src=$root/../shared/docs/src/crates/ion/src
out=$root/target/oracle

case "${1:-}" in
    --help | -h)
        sed -n '2,${/^#/!q;s/^# \{0,1\}//p;}' "$0"
        exit 0
        ;;
esac

# stops with one line where what a comparison needs is not there
needs_rust() {
    [ -d "$src" ] || { echo "$(basename "$0"): ../shared/docs/src is not there: the Rust that is compared with lies beside the repository, not in it" >&2; exit 2; }
    command -v rustc >/dev/null || { echo "$(basename "$0"): rustc is not there: the Rust side is built with it" >&2; exit 2; }
}

# TARGET FILE..: whether the target is missing or older than one of the files
older() {
    target=$1; shift
    [ -f "$target" ] || return 0
    [ -n "$(find "$@" -newer "$target" -print 2>/dev/null | head -n 1)" ]
}

# NAME: a static library of ours, where anything of the crates is newer, with the proof's own words only where it fails
our_library() {
    older "$root/target/staticlib/lib$1.a" "$root/crates" "$root/crates.txt" || return 0
    mkdir -p "$root/target"
    (cd "$root" && tools/build.sh "$1") >"$root/target/staticlib-$1.log" 2>&1 || { cat "$root/target/staticlib-$1.log" >&2; exit 1; }
}

# OUT SUMS: the Rust as a library, where anything of it is newer
rust_library() {
    needs_rust
    if older "$1/libion.rlib" "$src" "$root/oracle/make.sh" "$root/oracle/standins"; then "$root/oracle/make.sh" "$src" "$1" paper "$2" >&2; fi
}

# NAME SOURCE RUSTC-ARGUMENT..: a program linked with the Rust, where anything of it is newer
rust_program() {
    name=$1 source=$2; shift 2
    if older "$out/$name" "$out/libion.rlib" "$root/oracle" "$root/target/staticlib"; then
        rustc --edition 2024 -C opt-level=3 "$root/$source" -o "$out/$name" --extern ion="$out/libion.rlib" -L "$out" "$@"
    fi
}
