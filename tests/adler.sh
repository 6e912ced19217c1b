#!/usr/bin/env bash
# Compares what the program `slots_runs` is held to with the sums that zlib makes of the same inputs.
set -euo pipefail
cd "$(dirname "$0")/.."
python3 tests/adler.py | diff - crates/slots_runs/stdout
echo "adler: $(grep -c '^[0-9]' crates/slots_runs/stdout) sums as zlib has them"
