#!/usr/bin/env bash
# A release, made of these sources and the library that is proved from them: two are the same bit for bit, a checkout
# with changes is refused, and with the archive alone what its README shows works: the sums, a program in Rust, one in C,
# pkg-config and CMake. Where cargo or gcc is missing this is said, and nothing fails.
set -euo pipefail
cd "$(dirname "${BASH_SOURCE[0]}")/../.."
top=$PWD
work=$(mktemp -d)
trap 'rm -rf "$work"' EXIT

fail() {
  echo "release.sh: $1" >&2
  exit 1
}

# Whether a command is there. If not, says what is not tried.
has() {
  command -v "$1" >/dev/null || { echo "release.sh: $1 is missing, so $2" >&2; return 1; }
}

# A clone with the files as they are here, committed, and the proved library.
clone() {
  git clone -q "$top" "$1"
  git ls-files -zd | (cd "$1" && xargs -0r rm -f)
  comm -z23 <(git ls-files -zco --exclude-standard | sort -z) <(git ls-files -zd | sort -z) |
    tar -c --null -T - | tar -x -C "$1"
  git -C "$1" add -A
  git -C "$1" diff --cached --quiet ||
    git -C "$1" -c user.name=release.sh -c user.email= -c commit.gpgsign=false commit -q -m "Not committed yet"
  mkdir -p "$1/crates/c_calls/out"
  cp crates/c_calls/out/liblookup_c.a crates/c_calls/out/liblookup_c.a.proof "$1/crates/c_calls/out"
}

# A block of the README of the release: which one of a language.
block() {
  awk -v start="\`\`\`$1" '$0 == "```" { on = 0 } on { print } $0 == start { on = 1 }' README.md
}

for licence in LICENSE-*; do cmp "$licence" "bindings/rust/$licence"; done

tools/archive c_calls
tools/archive --proof c_calls >/dev/null || fail "the library is not known to be proved from these sources"

export GIT_AUTHOR_DATE=2000-01-01T00:00:00Z GIT_COMMITTER_DATE=2000-01-01T00:00:00Z
clone "$work/one"
clone "$work/two"
archive=$("$work/one/tools/release" "$work/made/one" 2>"$work/said") || fail "$(cat "$work/said")"
again=$(cd / && umask 077 && TZ=Asia/Tokyo "$work/two/tools/release" "$work/made/two" 2>"$work/said") || fail "$(cat "$work/said")"
cmp "$archive" "$again"
echo "two releases of one commit are the same"

echo >>"$work/two/README.md"
if "$work/two/tools/release" "$work/made/three" >"$work/said" 2>&1; then fail "a checkout with changes was released"; fi
grep -q README.md "$work/said" || fail "$(cat "$work/said")"
echo "a checkout with changes is refused"

mkdir "$work/a user"
cd "$work/a user"
tar xzf "$archive"
cd volgwain-*-x86_64-linux
package=$PWD
# nobody calls the kit from here on, nor names a library
mkdir "$work/bin"
printf '#!/bin/sh\necho "rt was called" >&2\nexit 1\n' >"$work/bin/rt"
chmod +x "$work/bin/rt"
export PATH="$work/bin:$PATH" CARGO_TARGET_DIR="$work/target"
unset VOLGWAIN_LIBRARY VOLGWAIN_HEAP DOCS_RS

grep -E '^[0-9a-f]{64}  ' PROVENANCE | sha256sum --check --quiet
[ "$(grep -cE '^[0-9a-f]{64}  ' PROVENANCE)" = "$(find . -type f ! -name PROVENANCE | wc -l)" ] || fail "PROVENANCE lacks a file"
grep -qx "commit: $(git -C "$work/one" rev-parse HEAD)" PROVENANCE || fail "PROVENANCE names another commit"
grep -q "^proof: logic=proved " PROVENANCE || fail "PROVENANCE has no proof"
echo "PROVENANCE has the commit, the proof and a sum of each file"

if has cargo "the package is not tried from Rust" && has cc "cargo cannot link, and the package is not tried from Rust"; then
  cargo run --quiet --offline --example range_check >"$work/output"
  diff <(block text) "$work/output"
  for example in memory_check threads; do cargo run --quiet --offline --example "$example" >/dev/null; done
  cargo test --quiet --offline --locked --no-run
  (cd "$work/a user" && cargo new --quiet --vcs none keys && cd keys && cargo add --quiet --offline --path "$package")
  block rust >"$work/a user/keys/src/main.rs"
  (cd "$work/a user/keys" && cargo run --quiet --offline)
  mv lib "$work/lib"
  DOCS_RS=1 cargo doc --quiet --offline --no-deps
  if cargo build --offline >"$work/said" 2>&1; then fail "a package without libraries was built"; fi
  grep -q "liblookup_c.a is missing" "$work/said" || fail "$(cat "$work/said")"
  mv "$work/lib" lib
  if cargo build --offline --target aarch64-unknown-linux-gnu >"$work/said" 2>&1; then fail "it was built for another machine"; fi
  grep -q "are for Linux on x86_64" "$work/said" || fail "$(cat "$work/said")"
  echo "the package works from Rust"
fi

# Runs the program in C that was built, which has to write what its example writes.
runs_in_c() {
  "$1" >"$work/output"
  diff "$work/one/bindings/c/examples/keys.txt" "$work/output"
}

if has gcc "the package is not tried from C"; then
  grep -q '^    gcc -Iinclude examples/keys.c lib/liblookup_c.a lib/liblibc_c.a$' README.md || fail "README.md has another command for C"
  gcc -Iinclude examples/keys.c lib/liblookup_c.a lib/liblibc_c.a -o "$work/keys"
  runs_in_c "$work/keys"
  if has pkg-config "its file is not tried"; then
    flags=$(PKG_CONFIG_PATH="$package/lib/pkgconfig" pkg-config --cflags --libs volgwain)
    eval "gcc examples/keys.c $flags -o '$work/keys'"
    runs_in_c "$work/keys"
  fi
  if has cmake "its package is not tried" && has make "the package for CMake is not tried"; then
    mkdir "$work/cmake"
    cp examples/keys.c "$work/cmake/program.c"
    {
      echo "cmake_minimum_required(VERSION 3.5)"
      echo "project(keys C)"
      echo "add_executable(program program.c)"
      sed -n 's/^    \(find_package(.*\|target_link_libraries(.*\)/\1/p' README.md
    } >"$work/cmake/CMakeLists.txt"
    cmake -G "Unix Makefiles" -S "$work/cmake" -B "$work/cmake/build" -DCMAKE_PREFIX_PATH="$package" >"$work/said"
    make --silent --no-print-directory -C "$work/cmake/build" >"$work/said"
    runs_in_c "$work/cmake/build/program"
  fi
  echo "the package works from C"
fi
