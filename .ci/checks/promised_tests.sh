#!/usr/bin/env bash
# Each test that docs/model/PROMISES.md names for a call names that call.
set -eu
cd "$(dirname "${BASH_SOURCE[0]}")/../.."
.ci/checks/promised-tests
echo "docs/model/PROMISES.md names tests of its calls"
