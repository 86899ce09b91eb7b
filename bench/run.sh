#!/bin/sh
# Builds the static library and the driver, and prints the ratios.
set -eu
cd "$(dirname "$0")/.."
kit=$(dirname "$(rt doc)")
tools/archive bench >/dev/null
work=$(mktemp -d)
trap 'rm -rf "$work"' EXIT
rustc -O --edition 2024 bench/driver.rs -o "$work/driver" \
    -C link-arg=crates/bench/out/libbench.a -C link-arg="$kit/c/liblibc_c.a"
"$work/driver"
