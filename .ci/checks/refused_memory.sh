#!/usr/bin/env bash
# Hostile use of the programs that the gate has built: requests for memory refused in turn, texts from outside, and
# deep expressions.
set -eu
cd "$(dirname "${BASH_SOURCE[0]}")/../.."
.ci/checks/refused-memory --judge
exec .ci/checks/refused-memory
