#!/usr/bin/env bash
# Runs the cases of cases/ over the programs that the gate has built.
set -eu
cd "$(dirname "${BASH_SOURCE[0]}")/../.."
tools/run-cases crates/lookup_run/out/lookup_run cases/*.txt
tools/run-cases crates/check_program/out/check_program cases/check/*.txt
