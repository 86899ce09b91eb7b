#!/usr/bin/env bash
# Every public definition in specs/ has a comment. No public contract rests on a definition in specs/internal/, and one
# rests on each other module of definitions.
set -eu
cd "$(dirname "${BASH_SOURCE[0]}")/../.."
tools/definitions --check
echo "the definitions of all crates have comments, and are public or internal as their contracts are"
