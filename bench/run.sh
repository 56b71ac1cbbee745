#!/usr/bin/env bash
# Builds the library and the program, and runs it with the arguments given: compare [--cases N] [--seed S], measure, or none for both.
set -euo pipefail
cd "$(dirname "$0")"
(cd ../crates/sengoruwa_c && rt lib)
cargo build --release --offline
exec target/release/sengoruwa_bench "$@"
