#!/usr/bin/env bash
# Proves and builds program `page`, and runs it on a catalogue: the file that is named, else the embedded example.
set -euo pipefail
cd "$(dirname "$0")"
catalogue=${1:-crates/page/stdin}
mkdir -p target
(cd crates/page && rt run < /dev/null) > target/run.log 2>&1 || { tail -n 20 target/run.log; exit 1; }
crates/page/out/page < "$catalogue"
