#!/bin/sh
# Builds the static library and runs the tests of its calls: in C, with gcc, and of the crate for Rust,
# with cargo; the examples in bindings/c, and the program of docs/guide/RUST_AND_C.md. The packages for Rust have to be
# formatted; of that for Plonky3, whose dependencies come from a registry, nothing else is tested. Otherwise it needs the
# kit's command rt alone.
#
# usage: bindings/run.sh                   proves the library first, if that has not been done from these sources
#        bindings/run.sh --archive PATH    tests the library that is there, and proves nothing
#
# VOLGWAIN_HEAP names another heap than the kit's; with both given, rt is not needed.
# Where gcc or cargo is missing it says so, runs the rest, and ends with status 3.
set -eu
archive=
if [ "${1:-}" = --archive ] && [ $# -eq 2 ] && [ -f "$2" ]; then
    archive=$(cd "$(dirname "$2")" && pwd)/$(basename "$2")
elif [ $# -ne 0 ]; then
    sed -n '7,8s/^# //p' "$0" >&2
    exit 2
fi
cd "$(dirname "$0")/.."
top=$PWD
heap=${VOLGWAIN_HEAP:-$(dirname "$(rt doc)")/c/liblibc_c.a}
work=$(mktemp -d)
trap 'rm -rf "$work"' EXIT

# Says what begins now.
say() {
    echo "bindings/run.sh: $1"
}

if [ -n "$archive" ]; then
    library=$archive
    say "taking $library as it is"
else
    library=$top/crates/c_calls/out/liblookup_c.a
    tools/archive c_calls
fi

# Says that a command is missing, and what is not tested without it.
is_missing() {
    if command -v "$1" >/dev/null; then return 1; fi
    echo "bindings/run.sh: $1 is missing, so $2" >&2
}

guide=docs/guide/RUST_AND_C.md

# A block of a language in a file, the first one unless it is said which.
block() {
    awk -v start="\`\`\`$2" -v which="${3:-1}" \
        '$0 == "```" { on = 0 } on { print } $0 == start && ++n == which { on = 1 }' "$1"
}

# Builds an example, and compares what it writes with the text beside it.
run_example() {
    gcc $flags -std=c99 -Ibindings/c "$1" -o "$work/program" "$library" "$heap" -lpthread
    "$work/program" >"$work/output"
    diff "${1%.c}.txt" "$work/output"
}

# Whether a file has this text, as a document shows it.
shows() {
    case $(cat "$1") in
    *"$2"*) ;;
    *)
        echo "bindings/run.sh: $guide does not show what $1 has" >&2
        exit 1
        ;;
    esac
}

# The header alone, as C99 and as C++17, and that an answer that is not looked at gives a warning. Then the
# test, the fuzz target over inputs of its own, and the examples, of which the guide shows a part of the first.
test_c() {
    say "testing the calls from C"
    flags="-Wall -Wextra -Werror -pedantic -O1"
    printf '#include "volgwain.h"\n' >"$work/header.c"
    gcc $flags -std=c99 -Ibindings/c -fsyntax-only "$work/header.c"
    if gcc -x c++ -fsyntax-only /dev/null 2>/dev/null; then
        gcc $flags -std=c++17 -x c++ -Ibindings/c -fsyntax-only "$work/header.c"
    else
        echo "bindings/run.sh: gcc has no C++, so the header is not tried as C++17" >&2
    fi
    printf '#include "volgwain.h"\nvoid shift(struct volgwain_refusal *r)\n' >"$work/ignored.c"
    printf '{ volgwain_shift(NULL, 0, 1, NULL, r, NULL, 0); }\n' >>"$work/ignored.c"
    if gcc -Werror=unused-result -Ibindings/c -c "$work/ignored.c" -o "$work/ignored.o" 2>/dev/null; then
        echo "bindings/run.sh: gcc does not warn where an answer is not looked at" >&2
        exit 1
    fi
    gcc $flags -std=c99 -Ibindings/c bindings/c/test.c -o "$work/test" "$library" "$heap" -lpthread \
        -Wl,--wrap=malloc,--wrap=realloc,--wrap=free
    "$work/test"
    gcc $flags -std=c99 -DFIXED_INPUTS -Ibindings/c bindings/c/fuzz.c -o "$work/fuzz" "$library" "$heap"
    "$work/fuzz"
    shows bindings/c/examples/keys.c "$(block "$guide" c 1)"
    shows bindings/c/examples/keys.c "$(block "$guide" c 2)"
    for example in bindings/c/examples/*.c; do
        run_example "$example"
    done
    echo "the examples in C write what they have to"
}

# A library of another interface: the call that has the number in its name has another name.
rename_interface() {
    call=volgwain_abi_$(sed -n 's/^#define VOLGWAIN_ABI //p' bindings/c/volgwain.h)
    mkdir "$work/other"
    objcopy --redefine-sym "$call=volgwain_abi_0" "$library" "$work/other/liblookup_c.a"
}

# Runs a command, which must not link for want of the call.
must_not_link() {
    if "$@" >"$work/output" 2>&1; then
        echo "bindings/run.sh: a library of another interface links: $*" >&2
        exit 1
    fi
    if ! grep -q "undefined.*$call" "$work/output"; then
        cat "$work/output" >&2
        exit 1
    fi
}

# A program that includes the header and calls nothing links with the library, but not with one of another
# interface, also where sections that nothing reads are removed.
test_interface_in_c() {
    printf '#include "volgwain.h"\nint main(void) { return 0; }\n' >"$work/program.c"
    for unread in "" "-ffunction-sections -fdata-sections -Wl,--gc-sections"; do
        link "$library"
        must_not_link link "$work/other/liblookup_c.a"
    done
    echo "from C, a library of another interface does not link"
}

link() {
    gcc -O2 $unread -Ibindings/c "$work/program.c" -o "$work/program" "$1" "$heap"
}

# The packages for Rust are as the formatter writes them, and the guide shows what the example for Plonky3 has.
test_formatting() {
    for package in rust rust/fuzz plonky3; do
        cargo fmt --check --manifest-path "bindings/$package/Cargo.toml"
    done
    shows bindings/plonky3/examples/audit.rs "$(block "$guide" rust 2)"
    echo "the packages for Rust are formatted"
}

# The tests of the crate, and of its documentation.
test_rust() {
    say "testing the crate for Rust"
    (cd bindings/rust && cargo test --quiet --offline --locked)
}

# The program of the guide, in a package of its own.
try_program() {
    cargo new --quiet --vcs none "$work/keys"
    block "$guide" rust >"$work/keys/src/main.rs"
    block "$guide" text >"$work/expected"
    (cd "$work/keys" && cargo add --quiet --offline --path "$top/bindings/rust" &&
        cargo run --quiet --offline) >"$work/output"
    diff "$work/expected" "$work/output"
    echo "the program of $guide writes what is shown there"
}

# That program over a library of another interface.
test_interface_in_rust() {
    for profile in dev release; do
        must_not_link env VOLGWAIN_LIBRARY="$work/other/liblookup_c.a" CARGO_TARGET_DIR="$work/other" \
            cargo build --offline --profile "$profile" --manifest-path "$work/keys/Cargo.toml"
    done
    echo "from Rust, a library of another interface does not link"
}

status=0
if ! cargo fmt --version >/dev/null 2>&1; then
    echo "bindings/run.sh: cargo fmt is missing, so formatting is not tested" >&2
    status=3
else
    test_formatting
fi
if is_missing objcopy "no library of another interface is tried"; then
    status=3
else
    rename_interface
fi
if is_missing gcc "the calls for C are not tested"; then
    status=3
else
    test_c
    if [ -d "$work/other" ]; then test_interface_in_c; fi
fi
if is_missing cargo "the crate for Rust is not tested" ||
    is_missing cc "cargo cannot link, and the crate for Rust is not tested"; then
    status=3
else
    export VOLGWAIN_LIBRARY="$library" VOLGWAIN_HEAP="$heap" CARGO_TARGET_DIR="$work/target"
    test_rust
    try_program
    if [ -d "$work/other" ]; then test_interface_in_rust; fi
fi
exit "$status"
