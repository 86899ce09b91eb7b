#!/usr/bin/env bash
# The crates are built as docs/ARCHITECTURE.md shows them.
set -eu
cd "$(dirname "${BASH_SOURCE[0]}")/../.."
.ci/checks/layers
echo "the first word of a crate's name is its layer, and no two modules import one another"
