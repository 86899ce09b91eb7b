#!/usr/bin/env bash
# Runs the built program over streams that are closed, full or no files, over many rows, and with
# little memory.
set -eu
cd "$(dirname "${BASH_SOURCE[0]}")/../.."
program=$PWD/crates/lookup_run/out/lookup_run
room=$(mktemp -d)
trap 'rm -rf "$room"' EXIT

# Wants the status $2, the output in the file $room/output and the line $3 of errors, or none.
expect() {
  local found
  found=$(cat "$room/errors")
  if [ "$status" != "$2" ] || [ -s "$room/output" ] || [ "$found" != "$3" ]; then
    echo "streams: $1: status $status, errors: $found" >&2
    exit 1
  fi
}

# Runs a command with its output and errors in files.
try() {
  : >"$room/output"
  : >"$room/errors"
  status=0
  "$@" >"$room/output" 2>"$room/errors" || status=$?
}

rows='3 4 1
4 3 1'
try "$program" range f7 5 2 </
expect "a folder as input" 2 "error: cannot read input"
try "$program" range f7 5 2 <&-
expect "no input" 2 "error: cannot read input"
try "$program" range f7 7 2 <&-
expect "a bad challenge and no input" 2 "error: bad challenge: 7"
try bash -c '"$0" range f7 5 2 >/dev/full' "$program" <<<"$rows"
expect "a full output" 2 ""
try bash -c '"$0" range f7 5 2 >&-' "$program" <<<"$rows"
expect "no output" 2 ""
try bash -c '"$0" range f7 5 2 2>/dev/full' "$program" <<<"3 4"
expect "full errors" 2 ""
try bash -c '"$0" range f7 5 2 2>&-' "$program" <<<"3 4"
expect "no errors" 2 ""

# 3000 rows whose fractions are 1/12 and -1/12 in turn
for ((i = 0; i < 1500; i++)); do printf '4 3 1\n3 4 1\n'; done >"$room/rows"
{
  echo 'air 0'
  for ((i = 0; i < 1500; i++)); do
    printf '0,0,0,0 1845493761,0,0,0\n1845493761,0,0,0 167772160,0,0,0\n'
  done
  printf 'terminal 0,0,0,0\nbalanced\n'
} >"$room/wanted"
try "$program" range babybear4 5,0,0,0 2,0,0,0 <"$room/rows"
if [ "$status" != 0 ] || ! cmp -s "$room/output" "$room/wanted" || [ -s "$room/errors" ]; then
  echo "streams: 3000 rows: status $status" >&2
  exit 1
fi

# a million rows in 40 megabytes
awk 'BEGIN { for (i = 0; i < 1000000; i++) print "3 4 1" }' >"$room/rows"
try bash -c 'ulimit -v 40000; exec "$0" range f7 5 2' "$program" <"$room/rows"
expect "little memory" 2 "error: out of memory"
echo "streams: all runs as they have to be"
