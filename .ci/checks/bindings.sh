#!/usr/bin/env bash
# The calls for C, and the crate for Rust over them. Where gcc or cargo is missing this is said, and
# nothing fails.
"$(dirname "${BASH_SOURCE[0]}")/../../bindings/run.sh"
status=$?
if [ "$status" -eq 3 ]; then
  exit 0
fi
exit "$status"
