#!/usr/bin/env bash
# Texts from outside over the program lookup-check that the gate has built, compared with a plain model.
set -eu
cd "$(dirname "${BASH_SOURCE[0]}")/../.."
.ci/checks/check_texts --judge
exec .ci/checks/check_texts
