# Sourced by the scripts beside it. Sets `host`, `root` and `build`, the folder outside the repository where this checkout's Rust is built, and the functions
#   ready     what a program beside the crate needs: looks for the crate's text, installs what is missing (`setup`), has libscte35.a built (`archive`),
#             copies the Rust side to `build`
#   made      PROFILE NAME: builds that program there for x86-64; `program` is then a copy that no other script touches
#   started   runs `program`, under qemu where the machine is not x86-64
#   cargo_    cargo in `build`
#   counts    installs what counts instructions; `counted PROGRAM ARGUMENT..` then says how many a run takes
# Two scripts of one checkout build one after the other; two checkouts have each a folder.
# Variables: CRATE_TEXT (the folder with the crate's lib.rs and upid.rs), HOST_CACHE (in place of scupirtadu in the user's cache folder), HOST_BUILD (in place
# of a folder there), SCTE35_LIB (a folder with a libscte35.a that is built already), JOBS (cargo's), COUNTER (callgrind or qemu).
host=$(cd "$(dirname "${BASH_SOURCE[0]}")" && pwd -P)
root=$(dirname "$host")
export HOST_CACHE=${HOST_CACHE:-${XDG_CACHE_HOME:-$HOME/.cache}/scupirtadu}
build=${HOST_BUILD:-$HOST_CACHE/build/$(printf %s "$root" | sha256sum | cut -c1-16)}
text=${CRATE_TEXT:-$root/../shared/docs/src/src}
target=x86_64-unknown-linux-gnu
# The Rust side: what is copied, and under which name below `build`/rust (host/Cargo.toml lists the packages by these names).
parts='
host/Cargo.toml Cargo.toml
host/.cargo .cargo
rust/scte35 scte35
host/differ differ
host/standins standins
host/crate crate
'
emulator=
if [ "$(uname -m)" != x86_64 ]; then
    # Debian's rustc and rustdoc have the standard library for x86-64 too; Debian's qemu, since the kit's ends in Rust's start
    export RUSTC=/usr/bin/rustc RUSTDOC=/usr/bin/rustdoc
    export CARGO_TARGET_X86_64_UNKNOWN_LINUX_GNU_LINKER=x86_64-linux-gnu-gcc
    export CARGO_TARGET_X86_64_UNKNOWN_LINUX_GNU_RUNNER=/usr/bin/qemu-x86_64
    emulator=/usr/bin/qemu-x86_64
fi
counter=${COUNTER:-$([ -z "$emulator" ] && echo callgrind || echo qemu)}

fail() {
    echo "$(basename "$0"): $*" >&2
    exit 1
}

room=$(mktemp -d)
trap 'rm -rf "$room"' EXIT

# Nobody else builds in `build` until `unlocked`, or until the script ends.
locked() {
    mkdir -p "$build"
    exec 8>"$build/lock"
    flock -n 8 || { echo "$(basename "$0"): waiting for another script that builds in $build" >&2; flock 8; }
    touch "$build"
}
unlocked() { flock -u 8; }

has_text() {
    local f
    for f in lib.rs upid.rs; do
        [ -f "$text/$f" ] || fail "no $text/$f: set CRATE_TEXT to the folder that holds the source of scte35-reader 0.16.0"
    done
}

# The crate's text as it stands, and a second copy with doors to private functions put behind it.
take_text() {
    local f
    mkdir -p "$build/rust/crate/scte35-reader/src" "$build/rust/crate/scte35-open/src"
    for f in lib.rs upid.rs; do
        cp -p "$text/$f" "$build/rust/crate/scte35-reader/src/$f"
        cmp "$text/$f" "$build/rust/crate/scte35-reader/src/$f"
    done
    cat "$text/lib.rs" "$host/crate/scte35-open/doors.rs.txt" >"$build/opened"
    # the time of the last change, so that cargo does not take it for new
    touch -r "$text/lib.rs" "$build/opened"
    [ ! "$host/crate/scte35-open/doors.rs.txt" -nt "$text/lib.rs" ] || touch -r "$host/crate/scte35-open/doors.rs.txt" "$build/opened"
    mv "$build/opened" "$build/rust/crate/scte35-open/src/lib.rs"
    cp -p "$text/upid.rs" "$build/rust/crate/scte35-open/src/upid.rs"
}

# The folder of libscte35.a, for the packages' build scripts.
archive() {
    [ -n "${SCTE35_LIB:-}" ] || SCTE35_LIB=$("$host/archive" "$root") || exit 1
    [ -f "$SCTE35_LIB/libscte35.a" ] || fail "no $SCTE35_LIB/libscte35.a"
    export SCTE35_LIB
}

ready() {
    has_text
    "$host/setup" "$@"
    archive
    locked
    rm -rf "$build/rust"
    mkdir "$build/rust"
    local from to
    while read -r from to; do [ -z "$from" ] || cp -Rp "$root/$from" "$build/rust/$to"; done <<<"$parts"
    take_text
}

cargo_() {
    (cd "$build/rust" && CARGO_TARGET_DIR=$build/target nice cargo "$1" --offline --quiet -j"${JOBS:-1}" --target $target "${@:2}") 8>&-
}

made() {
    cargo_ build --profile "$1" --bin "$2"
    cp "$build/target/$target/$1/$2" "$room/$2"
    program=$room/$2
    unlocked
}

started() { $emulator "$program" "$@"; }

counts() {
    case $counter in
    callgrind)
        [ -z "$emulator" ] || fail "callgrind counts programs of its own machine alone, and these are for x86-64: COUNTER=qemu"
        "$host/setup" --c valgrind
        ;;
    qemu)
        "$host/setup" --c qemu-user
        cc -O2 -shared -fPIC "$host/icount.c" -o "$room/icount.so"
        ;;
    *) fail "COUNTER is callgrind or qemu" ;;
    esac
}

counted() {
    if [ "$counter" = callgrind ]; then
        valgrind --tool=callgrind --callgrind-out-file=/dev/null "$@" 2>&1 >/dev/null | awk '/Collected/ { print $4 }'
    else
        ICOUNT=$room/count qemu-x86_64 -plugin "$room/icount.so" "$@" >/dev/null
        awk '/^instructions/ { print $2 }' "$room/count"
    fi
}
