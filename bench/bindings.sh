#!/bin/sh
# Builds both static libraries, the crate for Rust and the driver, and prints the ratios: where freed memory is
# kept for the next call, and where glibc gives it back.
set -eu
cd "$(dirname "$0")/.."
kit=$(dirname "$(rt doc)")
tools/archive bench >/dev/null
tools/archive c_calls >/dev/null
work=$(mktemp -d)
trap 'rm -rf "$work"' EXIT
export VOLGWAIN_LIBRARY="$PWD/crates/c_calls/out/liblookup_c.a" VOLGWAIN_HEAP="$kit/c/liblibc_c.a"
cargo build --quiet --release --offline --manifest-path bindings/rust/Cargo.toml --target-dir "$work"
rustc -O --edition 2024 bench/bindings_driver.rs -o "$work/driver" \
    --extern "volgwain=$work/release/libvolgwain.rlib" \
    -C link-arg=crates/bench/out/libbench.a -C link-arg="$VOLGWAIN_HEAP"
MALLOC_MMAP_MAX_=0 MALLOC_TRIM_THRESHOLD_=68719476736 MALLOC_TOP_PAD_=268435456 "$work/driver"
"$work/driver"
