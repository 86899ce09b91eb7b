#!/usr/bin/env bash
# No clause on refusals takes want of memory for a cause.
set -eu
cd "$(dirname "${BASH_SOURCE[0]}")/../.."
.ci/checks/excepted-memory
echo "no clause takes want of memory for a cause"
