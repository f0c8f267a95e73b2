#!/usr/bin/env bash
# Proves the names library for C and what it stands on, as far as that is not done, and makes target/c/libnames.a.
set -euo pipefail
cd "$(dirname "${BASH_SOURCE[0]}")/.."
(cd crates/names_c && rt lib)
mkdir -p target/c
cp crates/names_c/out/libnames_c.a target/c/libnames.a
